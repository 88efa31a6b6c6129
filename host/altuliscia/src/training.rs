//! What is trained, as one value: its fit, the lists that its run starts from, and how its answer shows a weight.
use crate::{c_retired, call, sign, Answer, General, OneClass, Options, Problem, Refusal, Tuned};
use std::cmp::Ordering;

/// What is trained: one of the fits with what it takes, but for the options.
#[derive(Clone, Copy, Debug)]
#[non_exhaustive]
pub enum Training<'a> {
    /// As [`fit_c`](crate::fit_c) has it.
    C {
        /// Matrix and labels.
        problem: Problem<'a>,
        /// The ceiling of positive samples.
        cpos: f64,
        /// The ceiling of negative samples.
        cneg: f64,
    },
    /// As [`fit_c_retired`](crate::fit_c_retired) has it.
    CRetired {
        /// Matrix and labels.
        problem: Problem<'a>,
        /// The ceiling of positive samples.
        cpos: f64,
        /// The ceiling of negative samples.
        cneg: f64,
        /// True where a sample is retired.
        retired: &'a [bool],
    },
    /// As [`fit_nu`](crate::fit_nu) has it.
    Nu {
        /// Matrix and labels.
        problem: Problem<'a>,
        /// Above 0 and not above 1.
        nu: f64,
    },
    /// As [`fit_one_class`](crate::fit_one_class) has it.
    OneClass {
        /// The samples.
        samples: OneClass<'a>,
        /// Above 0 and not above 1.
        nu: f64,
    },
    /// As [`fit_general`](crate::fit_general) has it.
    General(General<'a>),
    /// As [`fit_retired`](crate::fit_retired) has it.
    Retired {
        /// Matrix, labels and lists.
        general: General<'a>,
        /// True where a sample is retired.
        retired: &'a [bool],
    },
}

impl Training<'_> {
    /// How many samples there are, retired ones too.
    pub(crate) fn samples(&self) -> usize {
        match self {
            Training::C { problem, .. }
            | Training::CRetired { problem, .. }
            | Training::Nu { problem, .. } => problem.labels.len(),
            Training::OneClass { samples, .. } => samples.n,
            Training::General(general) | Training::Retired { general, .. } => {
                general.problem.labels.len()
            }
        }
    }

    /// Trains it.
    pub fn fit(&self, options: &Options) -> Result<Answer, Refusal> {
        self.fit_tuned(&Tuned::from(*options))
    }

    /// Trains it, with what is told beside the options.
    pub fn fit_tuned(&self, tuned: &Tuned) -> Result<Answer, Refusal> {
        let n = self.samples();
        match *self {
            Training::C {
                ref problem,
                cpos,
                cneg,
            } => call::with_room(n, |room| call::c(problem, cpos, cneg, tuned, room)),
            Training::CRetired {
                ref problem,
                cpos,
                cneg,
                retired,
            } => c_retired(problem, cpos, cneg, retired, tuned),
            Training::Nu { ref problem, nu } => {
                call::with_room(n, |room| call::nu(problem, nu, tuned, room))
            }
            Training::OneClass { ref samples, nu } => {
                call::with_room(n, |room| call::one_class(samples, nu, tuned, room))
            }
            Training::General(ref general) => {
                call::with_room(n, |room| call::general(general, tuned, room))
            }
            Training::Retired {
                ref general,
                retired,
            } => call::with_room(n, |room| call::retired(general, retired, tuned, room)),
        }
    }
}

/// How a fit answers a weight: as it is, signed by label, or signed and divided by r.
#[derive(Clone, Copy, Debug, PartialEq)]
pub(crate) enum Finish {
    Plain,
    Signed,
    Scaled,
}

/// Where a run starts (docs/RULE.md, 'Fits' and 'Retired samples'), of what its fit accepts: each list has n places.
#[derive(Clone, Debug)]
pub(crate) struct Lists<'a> {
    pub matrix: &'a [f64],
    pub labels: Vec<bool>,
    pub ceilings: Vec<f64>,
    pub alphas: Vec<f64>,
    pub linear: Vec<f64>,
    pub retired: Vec<bool>,
    pub nu_rule: bool,
    pub finish: Finish,
}

impl<'a> Lists<'a> {
    pub fn of(training: &Training<'a>) -> Lists<'a> {
        match *training {
            Training::C {
                problem,
                cpos,
                cneg,
            } => Lists::with_costs(&problem, cpos, cneg),
            Training::CRetired {
                problem,
                cpos,
                cneg,
                retired,
            } => Lists::with_costs(&problem, cpos, cneg).without(retired),
            Training::Nu { problem, nu } => Lists {
                nu_rule: true,
                finish: Finish::Scaled,
                alphas: shared(problem.labels, nu),
                ..Lists::even(problem.matrix, problem.labels.to_vec())
            },
            Training::OneClass { samples, nu } => Lists {
                alphas: first_ones(samples.n, nu),
                ..Lists::even(samples.matrix, vec![true; samples.n])
            },
            Training::General(general) => Lists::given(&general),
            Training::Retired { general, retired } => Lists::given(&general).without(retired),
        }
    }

    /// Each ceiling is 1, all else 0; the C rule.
    fn even(matrix: &'a [f64], labels: Vec<bool>) -> Lists<'a> {
        let n = labels.len();
        Lists {
            matrix,
            labels,
            ceilings: vec![1.0; n],
            alphas: vec![0.0; n],
            linear: vec![0.0; n],
            retired: vec![false; n],
            nu_rule: false,
            finish: Finish::Plain,
        }
    }

    fn with_costs(problem: &Problem<'a>, cpos: f64, cneg: f64) -> Lists<'a> {
        let cost = |positive: &bool| if *positive { cpos } else { cneg };
        Lists {
            ceilings: problem.labels.iter().map(cost).collect(),
            linear: vec![-1.0; problem.labels.len()],
            finish: Finish::Signed,
            ..Lists::even(problem.matrix, problem.labels.to_vec())
        }
    }

    fn given(general: &General<'a>) -> Lists<'a> {
        Lists {
            ceilings: general.ceilings.to_vec(),
            alphas: general.alphas.to_vec(),
            linear: general.linear.to_vec(),
            nu_rule: general.nu_rule,
            ..Lists::even(general.problem.matrix, general.problem.labels.to_vec())
        }
    }

    /// A retired sample starts at 0 with linear term 0.
    fn without(mut self, retired: &[bool]) -> Lists<'a> {
        for k in (0..retired.len()).filter(|k| retired[*k]) {
            self.alphas[k] = 0.0;
            self.linear[k] = 0.0;
        }
        self.retired = retired.to_vec();
        self
    }

    /// The same run for the general fit, whose weights are neither signed nor divided. Nobody is retired there.
    pub fn general(&self) -> General<'_> {
        General {
            problem: Problem {
                matrix: self.matrix,
                labels: &self.labels,
            },
            ceilings: &self.ceilings,
            alphas: &self.alphas,
            linear: &self.linear,
            nu_rule: self.nu_rule,
        }
    }

    /// Weights as the fit answers them, where its answer has that r.
    pub fn finished(&self, weights: &[f64], r: Option<f64>) -> Vec<f64> {
        let mut finished = weights.to_vec();
        if self.finish != Finish::Plain {
            sign(&mut finished, &self.labels, &self.retired);
        }
        if let (Finish::Scaled, Some(r)) = (self.finish, r) {
            finished.iter_mut().for_each(|weight| *weight /= r);
        }
        finished
    }
}

/// nu·n/2 for each label, handed out in order, to each sample 1 at the most.
fn shared(labels: &[bool], nu: f64) -> Vec<f64> {
    let mut left = [nu * labels.len() as f64 / 2.0; 2];
    let give = |label: &bool| {
        let left = &mut left[usize::from(*label)];
        let given = if *left < 1.0 { *left } else { 1.0 };
        *left -= given;
        given
    };
    labels.iter().map(give).collect()
}

/// nu·n handed out in order, 1 to each sample as long as it lasts.
fn first_ones(n: usize, nu: f64) -> Vec<f64> {
    let all = nu * n as f64;
    let whole = all as usize;
    let given = |k: usize| match k.cmp(&whole) {
        Ordering::Less => 1.0,
        Ordering::Equal => all - whole as f64,
        Ordering::Greater => 0.0,
    };
    (0..n).map(given).collect()
}

#[cfg(test)]
mod tests {
    use super::*;

    /// A threshold that no finite sum reaches: the run ends before its first pass, and what is answered is where it starts.
    fn at_once() -> Options {
        Options {
            eps: f64::MAX,
            ..Options::default()
        }
    }

    fn identity(n: usize) -> Vec<f64> {
        let entry = |k: usize| f64::from(u8::from(k % n == k / n));
        (0..n * n).map(entry).collect()
    }

    fn bits(list: &[f64]) -> Vec<u64> {
        let one = |x: &f64| if x.is_nan() { f64::NAN } else { *x };
        list.iter().map(|x| one(x).to_bits()).collect()
    }

    #[test]
    fn starts_are_the_librarys() {
        let mut free = 0;
        for n in [1, 2, 3, 7, 10, 64, 511, 512] {
            let matrix = identity(n);
            for nu in [1.0, 0.5, 1.0 / 3.0, 0.1, 0.7000000000000001, 1e-3, 5e-324] {
                let samples = OneClass { n, matrix: &matrix };
                let labels: Vec<bool> = (0..n).map(|k| k * k % 7 < 3).collect();
                let problem = Problem {
                    matrix: &matrix,
                    labels: &labels,
                };
                for training in [
                    Training::OneClass { samples, nu },
                    Training::Nu { problem, nu },
                ] {
                    let answer = training.fit(&at_once()).unwrap();
                    assert_eq!(answer.iterations, 0);
                    let lists = Lists::of(&training);
                    let start = lists.finished(&lists.alphas, answer.r);
                    assert_eq!(bits(&start), bits(&answer.home), "{} {}", n, nu);
                    let plain = crate::fit_general(&lists.general(), &at_once()).unwrap();
                    assert_eq!(bits(&lists.alphas), bits(&plain.home));
                    free += lists.alphas.iter().filter(|x| **x % 1.0 != 0.0).count();
                }
            }
        }
        assert!(free > 100, "{}", free);
    }

    #[test]
    fn a_retired_sample_starts_at_zero() {
        let problem = Problem {
            matrix: &identity(3),
            labels: &[true, false, false],
        };
        let general = General {
            problem,
            ceilings: &[3.0; 3],
            alphas: &[2.0; 3],
            linear: &[5.0; 3],
            nu_rule: true,
        };
        let retired = &[false, true, false][..];
        let lists = Lists::of(&Training::Retired { general, retired });
        assert_eq!(lists.alphas, [2.0, 0.0, 2.0]);
        assert_eq!(lists.linear, [5.0, 0.0, 5.0]);
        assert_eq!((&lists.retired[..], lists.nu_rule), (retired, true));
        let costs = Training::CRetired {
            problem,
            cpos: 2.0,
            cneg: 0.5,
            retired,
        };
        let lists = Lists::of(&costs);
        assert_eq!(lists.ceilings, [2.0, 0.5, 0.5]);
        assert_eq!(lists.linear, [-1.0, 0.0, -1.0]);
        let signed = lists.finished(&[0.25, 0.0, 0.0], None);
        assert_eq!(bits(&signed), bits(&[0.25, 0.0, -0.0]));
    }
}
