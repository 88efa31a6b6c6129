//! The trail of one weight: every step that changed it, found by a replay and confirmed by the library.
use crate::replay::{delta, Replay};
use crate::training::{Finish, Lists};
use crate::{find_pair, fit_general, Answer, Before, ExitReason, Options, Refusal, Training};
use std::fmt;

/// Where one sample's weight came from.
#[derive(Clone, Debug, PartialEq)]
pub struct Trail {
    /// The sample, counted from 0.
    pub sample: usize,
    /// Whether it is retired: then it starts at 0 and no step chooses it.
    pub retired: bool,
    /// The most that its weight may be.
    pub ceiling: f64,
    /// Its weight before the first pass.
    pub start: f64,
    /// The steps that chose it, in their order.
    pub steps: Vec<Step>,
    /// Its weight after the last pass, before it is signed and divided.
    pub end: f64,
    /// Its weight as it is answered: its place in `answer.home`.
    pub home: f64,
    /// What the run answers.
    pub answer: Answer,
    /// How many calls of the library's fits the trail was compared with.
    pub calls: u64,
}

/// One step that chose the sample. Its weights are without sign and not divided.
#[derive(Clone, Copy, Debug, PartialEq)]
pub struct Step {
    /// The pass that took it, from 1 on: after it the weights are those that a call with this budget answers.
    pub pass: u64,
    /// The other sample of the pair.
    pub partner: usize,
    /// Whether the sample was the first of the pair, i, and its partner the second, j; else it is the other way round.
    pub first: bool,
    /// What the step found of the sample.
    pub before: Before,
    /// What it found of the partner.
    pub partner_before: Before,
    /// The kernel value of column i, row j, negated where the labels differ.
    pub entry: f64,
    /// Whether the two have the same label.
    pub agree: bool,
    /// The step before it is clipped. Where the labels differ it is added to both weights; where they agree it is taken from weight i and
    /// added to weight j.
    pub delta: f64,
    /// The weight that it left.
    pub left: f64,
    /// The partner's weight that it left.
    pub partner_left: f64,
}

impl Step {
    /// What the step would change the sample's weight by, were nothing clipped.
    pub fn asked(&self) -> f64 {
        match self.agree && self.first {
            true => -self.delta,
            false => self.delta,
        }
    }

    /// What it changed the sample's weight by.
    pub fn taken(&self) -> f64 {
        self.left - self.before.weight
    }

    /// Whether the weight was left elsewhere than the step would have brought it.
    pub fn clipped(&self) -> bool {
        !same(self.before.weight + self.asked(), self.left)
    }
}

/// To the bit; a NaN is a NaN.
fn same(x: f64, y: f64) -> bool {
    x.to_bits() == y.to_bits() || x.is_nan() && y.is_nan()
}

/// Why there is no trail.
#[derive(Clone, Copy, Debug, PartialEq, Eq)]
#[non_exhaustive]
pub enum NoTrail {
    /// The library refuses the training.
    Refused(Refusal),
    /// Shrinking is asked for.
    Shrinking,
    /// There is no such sample.
    Sample {
        /// What was asked for.
        sample: usize,
        /// How many samples there are; the last is n - 1.
        n: usize,
    },
    /// The replay and the library part, which is a fault of one of them.
    Differs {
        /// After how many passes.
        pass: u64,
        /// The first sample whose weight differs; none where the weights are the same and how the run goes on isn't.
        sample: Option<usize>,
    },
}

impl From<Refusal> for NoTrail {
    fn from(refusal: Refusal) -> NoTrail {
        NoTrail::Refused(refusal)
    }
}

impl fmt::Display for NoTrail {
    fn fmt(&self, f: &mut fmt::Formatter<'_>) -> fmt::Result {
        match self {
            NoTrail::Refused(refusal) => refusal.fmt(f),
            NoTrail::Shrinking => {
                write!(
                    f,
                    "a trail is told with shrinking off: with it on, samples move"
                )
            }
            NoTrail::Sample { sample, n } => write!(
                f,
                "there is no sample {}: n is {}, and samples are counted from 0",
                sample, n
            ),
            NoTrail::Differs { pass, sample } => {
                let what = match sample {
                    Some(sample) => format!("the weight of sample {}", sample),
                    None => "how the run goes on".to_string(),
                };
                write!(
                    f,
                    "after pass {} the replay and the library differ in {}: this is a fault of Altuliscia, and no trail is told",
                    pass, what
                )
            }
        }
    }
}

impl std::error::Error for NoTrail {}

/// Follows one sample through a training with shrinking off and the usual floor, since [`find_pair`] has no other: where its weight started, every step that changed it, and
/// what is answered.
///
/// The run is replayed here, by the rule (docs/RULE.md) in plain f64; what a step leaves of its two weights is asked of the library's
/// [`find_pair`]. Then the library is asked for the same: for each step that chose the sample, a call whose budget ends just before it and
/// one that ends with it. All n weights must be the replay's, bit for bit, and at the end also the iterations and the exit reason; else it
/// is [`NoTrail::Differs`]. So each weight in a trail is one that the library answers. (A call can't have a budget of 0, so what the first
/// pass of all found are the start weights by the rule. Under nu the weights are compared as they are answered, divided by r; where r is no
/// divisor also with those of [`fit_general`], which aren't.)
///
/// Gradients, `delta` and which of the two is the first are computed here: no call tells them. They are confirmed in so far as the pair
/// finder, given them, leaves what the library's run left.
///
/// A sample that is chosen often costs two trainings for each time.
///
/// ```
/// use altuliscia::{trail, Options, Problem, Training};
///
/// let problem = Problem { matrix: &[1.0, 0.0, 0.0, 1.0], labels: &[true, false] };
/// let training = Training::C { problem, cpos: 1.0, cneg: 1.0 };
/// let told = trail(&training, 1, &Options::default())?;
/// assert_eq!((told.start, told.end, told.home), (0.0, 1.0, -1.0));
/// let step = &told.steps[0];
/// assert_eq!((step.pass, step.partner, step.left), (1, 0, 1.0));
/// # Ok::<(), altuliscia::NoTrail>(())
/// ```
pub fn trail(training: &Training, sample: usize, options: &Options) -> Result<Trail, NoTrail> {
    if options.shrinking {
        return Err(NoTrail::Shrinking);
    }
    let answer = training.fit(options)?;
    let n = answer.home.len();
    if sample >= n {
        return Err(NoTrail::Sample { sample, n });
    }
    Follower::new(training, sample, options).follow(answer)
}

/// A run that is followed for one sample.
struct Follower<'a> {
    training: &'a Training<'a>,
    options: &'a Options,
    sample: usize,
    replay: Replay<'a>,
    find: fn(&Before, &Before, f64, bool) -> (f64, f64),
    /// The passes so far, and how many of them the library has confirmed.
    pass: u64,
    confirmed: u64,
    steps: Vec<Step>,
    calls: u64,
}

impl<'a> Follower<'a> {
    fn new(training: &'a Training<'a>, sample: usize, options: &'a Options) -> Follower<'a> {
        Follower {
            training,
            options,
            sample,
            replay: Replay::started(Lists::of(training), options.eps),
            find: find_pair,
            pass: 0,
            confirmed: 0,
            steps: Vec::new(),
            calls: 0,
        }
    }

    /// Through the whole run, whose answer this is.
    fn follow(mut self, answer: Answer) -> Result<Trail, NoTrail> {
        self.calls += 1;
        while self.pass < answer.iterations {
            let (i, j) = self.replay.choose().ok_or_else(|| self.differs(None))?;
            self.take(i, j)?;
        }
        self.compare(&answer, self.options.budget)?;
        let ran_out = self.pass == self.options.budget;
        if ran_out != (answer.reason == ExitReason::Iterations)
            || !ran_out && self.replay.choose().is_some()
        {
            return Err(self.differs(None));
        }
        let (lists, s) = (&self.replay.lists, self.sample);
        Ok(Trail {
            sample: s,
            retired: lists.retired[s],
            ceiling: lists.ceilings[s],
            start: lists.alphas[s],
            end: self.replay.weights[s],
            home: answer.home[s],
            steps: self.steps,
            answer,
            calls: self.calls,
        })
    }

    /// The next pass, which takes this pair.
    fn take(&mut self, i: usize, j: usize) -> Result<(), NoTrail> {
        let met = [i, j].contains(&self.sample);
        if met {
            self.confirm()?;
        }
        let (before_i, before_j) = (self.replay.before(i), self.replay.before(j));
        let (entry, agree) = (self.replay.entry(i, j), self.replay.agree(i, j));
        let (left_i, left_j) = (self.find)(&before_i, &before_j, entry, agree);
        self.replay.carry((i, left_i), (j, left_j));
        self.pass += 1;
        if !met {
            return Ok(());
        }
        let first = i == self.sample;
        let (one, two) = ((i, before_i, left_i), (j, before_j, left_j));
        let (own, other) = if first { (one, two) } else { (two, one) };
        self.steps.push(Step {
            pass: self.pass,
            partner: other.0,
            first,
            before: own.1,
            partner_before: other.1,
            entry,
            agree,
            delta: delta(&before_i, &before_j, entry, agree),
            left: own.2,
            partner_left: other.2,
        });
        self.confirm()
    }

    /// Asks the library for the passes so far, where it hasn't been asked.
    fn confirm(&mut self) -> Result<(), NoTrail> {
        if self.pass == self.confirmed {
            return Ok(());
        }
        let answer = self.training.fit(&self.with_budget(self.pass))?;
        self.calls += 1;
        if answer.iterations != self.pass {
            return Err(self.differs(None));
        }
        self.compare(&answer, self.pass)?;
        self.confirmed = self.pass;
        Ok(())
    }

    /// Whether the weights of that answer, of a call with that budget, are the replay's. Where r is no divisor, they are asked for
    /// undivided, too.
    fn compare(&mut self, answer: &Answer, budget: u64) -> Result<(), NoTrail> {
        let (lists, weights) = (&self.replay.lists, &self.replay.weights);
        self.alike(&lists.finished(weights, answer.r), &answer.home)?;
        let divides = |r: f64| r.is_finite() && r != 0.0;
        if lists.finish == Finish::Scaled && !answer.r.map_or(false, divides) {
            let plain = fit_general(&lists.general(), &self.with_budget(budget))?;
            self.alike(weights, &plain.home)?;
            self.calls += 1;
        }
        Ok(())
    }

    fn alike(&self, own: &[f64], theirs: &[f64]) -> Result<(), NoTrail> {
        let parted = (0..own.len()).find(|k| !same(own[*k], theirs[*k]));
        parted.map_or(Ok(()), |k| Err(self.differs(Some(k))))
    }

    fn with_budget(&self, budget: u64) -> Options {
        Options {
            budget,
            ..*self.options
        }
    }

    fn differs(&self, sample: Option<usize>) -> NoTrail {
        NoTrail::Differs {
            pass: self.pass,
            sample,
        }
    }
}

#[cfg(test)]
mod tests {
    use super::*;
    use crate::Problem;

    const MATRIX: [f64; 16] = [
        4.0, -4.0, 3.0, -3.0, -4.0, 3.0, 2.0, -2.0, 3.0, 2.0, 4.0, 0.0, -3.0, -2.0, 0.0, 5.0,
    ];

    /// Three passes: samples 3 and 1, then 2 and 1, clipped, then 2 and 3. Sample 0 is never chosen.
    fn four(cost: f64) -> Training<'static> {
        Training::C {
            problem: Problem {
                matrix: &MATRIX,
                labels: &[true, false, true, true],
            },
            cpos: cost,
            cneg: cost,
        }
    }

    /// After which pass a fault of the replay is noticed by whoever follows each sample, and which sample differs there; 9 where nothing is
    /// noticed.
    fn noticed(cost: f64, fault: fn(&mut Follower)) -> [(u64, Option<usize>); 4] {
        let (training, options) = (four(cost), Options::default());
        [0, 1, 2, 3].map(|sample| {
            let mut follower = Follower::new(&training, sample, &options);
            fault(&mut follower);
            match follower.follow(training.fit(&options).unwrap()) {
                Err(NoTrail::Differs { pass, sample }) => (pass, sample),
                other => (9, other.map(|trail| trail.steps.len()).ok()),
            }
        })
    }

    #[test]
    fn a_right_replay_is_confirmed() {
        let steps = [0, 2, 2, 2].map(|count| (9, Some(count)));
        assert_eq!(noticed(0.5, |_| {}), steps);
        assert_eq!(noticed(1.0, |_| {}), steps);
    }

    #[test]
    fn a_wrong_finder_is_noticed() {
        let passes = |fault: fn(&mut Follower)| noticed(0.5, fault).map(|(pass, _)| pass);
        let by_a_bit = |f: &mut Follower| {
            f.find = |i, j, entry, agree| {
                let (x, y) = find_pair(i, j, entry, agree);
                (x, f64::from_bits(y.to_bits() + 1))
            }
        };
        assert_eq!(passes(by_a_bit), [3, 1, 1, 1]);
        let agree_turned =
            |f: &mut Follower| f.find = |i, j, entry, agree| find_pair(i, j, entry, !agree);
        assert_eq!(passes(agree_turned), [3, 1, 3, 1]);
        let entry_negated =
            |f: &mut Follower| f.find = |i, j, entry, agree| find_pair(i, j, -entry, agree);
        assert_eq!(passes(entry_negated), [2, 1, 1, 1]);
        // What the first step leaves of its two weights is the same.
        let exchanged =
            |f: &mut Follower| f.find = |i, j, entry, agree| find_pair(j, i, entry, agree);
        assert_eq!(passes(exchanged), [3, 2, 2, 2]);
        let unclipped = |f: &mut Follower| {
            f.find = |i, j, entry, agree| {
                let step = delta(i, j, entry, agree);
                let x = if agree { -step } else { step };
                (i.weight + x, j.weight + step)
            }
        };
        assert_eq!(passes(unclipped), [3, 2, 2, 2]);
        assert_eq!(noticed(1.0, unclipped), noticed(1.0, |_| {}));
    }

    #[test]
    fn a_wrong_replay_is_noticed() {
        let gradient = |f: &mut Follower| f.replay.gradients[1] += 1e-15;
        let places = [(3, Some(3)), (1, Some(1)), (1, Some(1)), (1, Some(1))];
        assert_eq!(noticed(0.5, gradient), places);
        // Of zeros the sign counts.
        let zero = |f: &mut Follower| f.replay.weights[0] = -0.0;
        let places = [(3, Some(0)), (1, Some(0)), (1, Some(0)), (1, Some(0))];
        assert_eq!(noticed(0.5, zero), places);
        let early = |f: &mut Follower| f.replay.eps = 2.0;
        assert_eq!(noticed(0.5, early), [(1, None); 4]);
        let late = |f: &mut Follower| f.replay.eps = 0.0;
        assert_eq!(noticed(1.0, late), [(3, None); 4]);
        let other_rule = |f: &mut Follower| f.replay.lists.nu_rule = true;
        assert_eq!(noticed(0.5, other_rule), [(0, None); 4]);
        let retired = |f: &mut Follower| f.replay.lists.retired[1] = true;
        assert_eq!(noticed(0.5, retired), [(0, None); 4]);
        let unsigned = |f: &mut Follower| f.replay.lists.finish = Finish::Plain;
        let places = [(3, Some(1)), (1, Some(1)), (1, Some(1)), (1, Some(1))];
        assert_eq!(noticed(0.5, unsigned), places);
    }

    #[test]
    fn a_run_that_ends_otherwise_is_noticed() {
        let (training, options) = (four(0.5), Options::default());
        let answer = training.fit(&options).unwrap();
        let end = |change: fn(&mut Answer)| {
            let mut answer = answer.clone();
            change(&mut answer);
            let told = Follower::new(&training, 0, &options).follow(answer);
            told.map(|_| ())
        };
        let differs = |pass, sample| Err(NoTrail::Differs { pass, sample });
        assert_eq!(end(|_| {}), Ok(()));
        assert_eq!(end(|a| a.reason = ExitReason::Iterations), differs(3, None));
        assert_eq!(end(|a| a.iterations = 4), differs(3, None));
        assert_eq!(end(|a| a.iterations = 2), differs(2, Some(2)));
        assert_eq!(end(|a| a.home[2] = f64::NAN), differs(3, Some(2)));
    }

    #[test]
    fn where_r_divides_nothing_the_weights_are_asked_for_undivided() {
        let problem = Problem {
            matrix: &[1.0, 0.0, 0.0, 1.0],
            labels: &[true, false],
        };
        let (training, options) = (Training::Nu { problem, nu: 1.0 }, Options::default());
        let told = trail(&training, 0, &options).unwrap();
        assert_eq!(told.answer.r, Some(f64::INFINITY));
        assert_eq!((told.end, told.home, told.calls), (1.0, 0.0, 2));
        let mut follower = Follower::new(&training, 0, &options);
        follower.replay.weights[1] = 0.5;
        let differs = follower.follow(told.answer).unwrap_err();
        let expected = NoTrail::Differs {
            pass: 0,
            sample: Some(1),
        };
        assert_eq!(differs, expected);
    }

    #[test]
    fn what_stands_in_the_way_is_told() {
        let told = |why: NoTrail| why.to_string();
        assert_eq!(told(NoTrail::Refused(Refusal::Nu)), Refusal::Nu.to_string());
        assert!(told(NoTrail::Shrinking).contains("with shrinking off"));
        let place = NoTrail::Sample { sample: 7, n: 4 };
        assert_eq!(
            told(place),
            "there is no sample 7: n is 4, and samples are counted from 0"
        );
        let differs = |sample| told(NoTrail::Differs { pass: 12, sample });
        assert!(differs(Some(3)).starts_with(
            "after pass 12 the replay and the library differ in the weight of sample 3: "
        ));
        assert!(differs(None).contains("differ in how the run goes on: "));
    }
}
