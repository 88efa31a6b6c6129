//! A support vector machine trainer (SMO on a precomputed kernel: C, nu, one class) that is proved to meet its contract, for Rust: the
//! functions of `include/altuliscia.h` with types. This crate itself is tested, not proved.
//!
//! A problem is a kernel matrix with labels. A [`Training`] says what is made of it, and hands back a [`Trained`] or a [`Refusal`]. Nothing
//! here panics, whatever is handed in. Calls keep no state, so they may be made from several threads at once.
//!
//! ```
//! use altuliscia::{Problem, Training, Tuned};
//!
//! let problem = Problem { matrix: &[1.0, 0.0, 0.0, 1.0], labels: &[true, false] };
//! let training = Training::C { problem, cpos: 1.0, cneg: 1.0 };
//! assert_eq!(training.cautions_tuned(&Tuned::default()), []); // what to know before it is trained
//! let trained = training.train(&Tuned::default())?;
//! assert_eq!(trained.unfit(), None); // why it is not to be released
//! assert_eq!((trained.coefficients(), trained.rho()), (&[1.0, -1.0][..], 0.0));
//!
//! // Something new, by its kernel values with the two samples.
//! let decision = trained.decision(&[0.75, 0.25])?;
//! assert_eq!((decision, decision >= 0.0), (0.5, true));
//! # Ok::<(), Box<dyn std::error::Error>>(())
//! ```
//!
//! # How to use the answer
//!
//! The [`decision`] on something new is the sum over the samples of coefficient times kernel value, less rho. From 0 on it is positive
//! ([`Training::OneClass`]: of the class), else, NaN too, negative. The kernel value of a retired sample has no say. What is
//! [`unfit`](Trained::unfit) is not to be released: its budget ran out, rho isn't finite, under nu r isn't above 0, or it or its inverse
//! isn't finite, or it has no support vector. [`Training::cautions_tuned`] tells beforehand what is accepted and mostly a mistake.
//!
//! [`fit_c`] and its fellows answer the same as an [`Answer`], without the coefficients: its weights, `home`, are signed by label under
//! [`fit_c`], [`fit_c_retired`] and [`fit_nu`], but not under [`fit_general`] and [`fit_retired`].
//!
//! # Refusals
//!
//! A bad input is refused before anything runs:
//!
//! ```
//! use altuliscia::{fit_c, Options, Problem, Refusal};
//!
//! let problem = Problem {
//!     matrix: &[1.0, 0.0, f64::NAN, 1.0],
//!     labels: &[true, false],
//! };
//! let refusal = fit_c(&problem, 1.0, 1.0, &Options::default()).unwrap_err();
//! assert_eq!(refusal, Refusal::Kernel { index: 2 });
//! assert_eq!((refusal.number(), refusal.index()), (3, 2));
//! ```
//!
//! A sample that is withdrawn is retired, never taken out, so every other keeps its number: [`fit_c_retired`] and [`fit_retired`] train
//! as if it weren't there, and its weight is 0.
//!
//! # Where a weight came from
//!
//! [`trail`] follows one sample through a training, given as a [`Training`]: where its weight started and every step that chose it, compared
//! with the library's own calls. [`find_pair`] is one such step by itself.
//!
//! # Another floor
//!
//! Where the curvature of a pair isn't above 0, a small number stands for it, [`USUAL_FLOOR`]. [`Training::fit_tuned`] is told another. Two
//! samples with the same kernel values and different labels are such a pair, and a smaller floor takes longer steps along it:
//!
//! ```
//! use altuliscia::{Options, Problem, Training, Tuned};
//!
//! let problem = Problem { matrix: &[1.0; 4], labels: &[true, false] };
//! let training = Training::C { problem, cpos: 1e12, cneg: 1e12 };
//! let mut tuned = Tuned::from(Options::default());
//! assert_eq!(training.fit_tuned(&tuned)?.iterations, 50);
//! tuned.floor = 1e-12;
//! assert_eq!(training.fit_tuned(&tuned)?.iterations, 1);
//! # Ok::<(), altuliscia::Refusal>(())
//! ```
//!
//! # Ceilings that travel
//!
//! Shrinking moves samples, and as in `linfa-svm` a step then clips a weight by the ceiling of the place where its sample stands. With
//! [`Tuned::travelling`] it is the sample's own. That matters where shrinking is on and the ceilings differ; here the last sample's is 1:
//!
//! ```
//! use altuliscia::{Options, Problem, Training, Tuned};
//!
//! let matrix = [11, 0, -3, -1, 0, 11, 1, 7, -3, 1, 2, 1, -1, 7, 1, 6].map(f64::from);
//! let problem = Problem { matrix: &matrix, labels: &[false, false, false, true] };
//! let training = Training::C { problem, cpos: 1.0, cneg: 2.0 };
//! let mut tuned = Tuned::from(Options { shrinking: true, ..Options::default() });
//! assert_eq!(training.fit_tuned(&tuned)?.home[3], 1.146617692072237);
//! tuned.travelling = true;
//! assert_eq!(training.fit_tuned(&tuned)?.home[3], 1.0);
//! # Ok::<(), altuliscia::Refusal>(())
//! ```
//!
//! # Several languages
//!
//! For two to twelve languages there is a training for each two of them. A [`Sorter`] trains them all, and tells which language a caption is
//! in by their [`votes`], which the library counts.
#![deny(missing_docs, unsafe_code)]

mod call;
mod cautions;
mod functions;
mod pair;
mod refusal;
mod replay;
mod sorter;
mod trail;
mod trained;
mod training;
mod votes;

pub use cautions::Caution;
pub use pair::{find_pair, Before};
pub use refusal::Refusal;
pub use sorter::{Corpus, NoSorter, Pair, Sorter, Unsorted, Verdict, Way};
pub use trail::{trail, NoTrail, Step, Trail};
pub use trained::{decision, Trained, Unfit, WrongLength};
pub use training::Training;
pub use votes::{pairs, votes, NoVotes, Panel, Votes};

/// The most samples that a problem may have.
pub const MOST_SAMPLES: usize = 512;
/// The largest budget.
pub const MOST_PASSES: u64 = 10_000_000;
/// A weight counts as support where its magnitude is above this: 100*2^-52, as in `linfa-svm`.
pub const SUPPORT_LIMIT: f64 = 2.220446049250313e-14;
/// The floor of the curvature in `linfa-svm`, and by default; LIBSVM has 1e-12.
pub const USUAL_FLOOR: f64 = 1e-10;
/// The fewest languages that are voted on.
pub const FEWEST_LANGUAGES: usize = 2;
/// The most languages that are voted on.
pub const MOST_LANGUAGES: usize = 12;
/// What a call needs of the stack at the most, in bytes.
pub const STACK_BYTES: usize = 65_536;

/// Samples of two classes.
#[derive(Clone, Copy, Debug)]
pub struct Problem<'a> {
    /// The kernel matrix column by column: column c, row r stands at `c * n + r`, where n is the number of labels. It need not be
    /// symmetric.
    pub matrix: &'a [f64],
    /// True is positive. One label a sample: their number is n.
    pub labels: &'a [bool],
}

/// Samples of one class.
#[derive(Clone, Copy, Debug)]
pub struct OneClass<'a> {
    /// How many samples there are.
    pub n: usize,
    /// The kernel matrix column by column, as in [`Problem`].
    pub matrix: &'a [f64],
}

/// A problem with every list given.
#[derive(Clone, Copy, Debug)]
pub struct General<'a> {
    /// Matrix and labels.
    pub problem: Problem<'a>,
    /// The ceiling of each sample's weight.
    pub ceilings: &'a [f64],
    /// Where each weight starts: from 0 up to its ceiling.
    pub alphas: &'a [f64],
    /// The linear term of each sample.
    pub linear: &'a [f64],
    /// Whether pairs are chosen by the nu rule; else it is the C rule.
    pub nu_rule: bool,
}

/// How a run goes. The default is that of `linfa-svm`.
#[derive(Clone, Copy, Debug, PartialEq)]
pub struct Options {
    /// The run ends where no pair breaks the conditions by this much. 1e-7 by default.
    pub eps: f64,
    /// Whether samples that seem settled are put aside. Off by default; where it is on, a run may be refused with
    /// [`Refusal::ShrunkAway`].
    pub shrinking: bool,
    /// The most passes, from 1 to [`MOST_PASSES`], which is the default.
    pub budget: u64,
}

impl Default for Options {
    fn default() -> Options {
        Options {
            eps: 1e-7,
            shrinking: false,
            budget: MOST_PASSES,
        }
    }
}

/// The options, and what a run may be told beside them. It begins as `Tuned::from(options)`, which tells nothing, or `Tuned::default()`, of
/// the usual options: later versions may add fields.
#[derive(Clone, Copy, Debug, PartialEq)]
#[non_exhaustive]
pub struct Tuned {
    /// The options.
    pub options: Options,
    /// Stands for the curvature of a pair where that isn't above 0, in the choice of the pair and in its step: above 0 and not above 1, else
    /// it is [`Refusal::Floor`]. [`USUAL_FLOOR`] at first. A smaller one takes longer steps along flat directions. There is a [`trail`] of
    /// the usual one only.
    pub floor: f64,
    /// Whether a sample keeps its own ceiling when shrinking moves it. False at first, as in `linfa-svm`, where a step clips by the ceiling of the
    /// place. With one common ceiling, as nu and one class have, and with shrinking off, the answer and the refusal are the same either way.
    /// Where samples may be retired it is [`Refusal::Length`]: shrinking is off there, so nothing moves.
    pub travelling: bool,
}

impl From<Options> for Tuned {
    fn from(options: Options) -> Tuned {
        Tuned {
            options,
            floor: USUAL_FLOOR,
            travelling: false,
        }
    }
}

impl Default for Tuned {
    fn default() -> Tuned {
        Tuned::from(Options::default())
    }
}

/// Why an accepted run ended.
#[derive(Clone, Copy, Debug, PartialEq, Eq, Hash)]
pub enum ExitReason {
    /// Over the active samples whose gradient is a number, the sum of the largest rise and the largest fall is below eps, or is not
    /// above 0 (NaN, too); under the nu rule so is each label's. With shrinking off all are active but the retired; with it on, the
    /// gradients are those that are kept.
    Threshold,
    /// The budget ran out.
    Iterations,
}

/// The answer of an accepted run.
#[derive(Clone, Debug, PartialEq)]
pub struct Answer {
    /// The offset.
    pub rho: f64,
    /// The scale of the nu rule; absent without it.
    pub r: Option<f64>,
    /// The objective.
    pub obj: f64,
    /// How many steps were taken.
    pub iterations: u64,
    /// Why the run ended.
    pub reason: ExitReason,
    /// How many places of `home` are above [`SUPPORT_LIMIT`] in magnitude; neither a NaN nor a zero is. A weight that isn't counted and
    /// isn't 0 still has its say in a decision.
    pub support: u64,
    /// What `linfa-svm` answers, or would with this floor for its 1e-10 and, travelling, with bounds that move along: place i has the weight
    /// at position order\[i\].
    pub crate_reading: Vec<f64>,
    /// Each sample's own weight, its dual coefficient. The head of this page says how it is used.
    pub home: Vec<f64>,
}

/// Trains two classes, with `cpos` as the ceiling of positive samples and `cneg` as that of negative ones.
pub fn fit_c(
    problem: &Problem,
    cpos: f64,
    cneg: f64,
    options: &Options,
) -> Result<Answer, Refusal> {
    let problem = *problem;
    Training::C {
        problem,
        cpos,
        cneg,
    }
    .fit(options)
}

/// Trains two classes by the nu rule, with nu above 0 and not above 1.
///
/// ```
/// use altuliscia::{fit_nu, Options, Problem};
///
/// let problem = Problem {
///     matrix: &[1.0, 0.0, 0.0, 1.0],
///     labels: &[true, false],
/// };
/// let answer = fit_nu(&problem, 1.0, &Options::default())?;
/// assert!(answer.r.is_some());
/// # Ok::<(), altuliscia::Refusal>(())
/// ```
pub fn fit_nu(problem: &Problem, nu: f64, options: &Options) -> Result<Answer, Refusal> {
    let problem = *problem;
    Training::Nu { problem, nu }.fit(options)
}

/// Trains one class, with nu above 0 and not above 1.
///
/// ```
/// use altuliscia::{fit_one_class, OneClass, Options, Refusal};
///
/// let samples = OneClass { n: 2, matrix: &[1.0, 0.0, 0.0, 1.0] };
/// let answer = fit_one_class(&samples, 0.5, &Options::default())?;
/// assert_eq!(answer.home.iter().sum::<f64>(), 1.0);
///
/// let none = OneClass { n: 0, matrix: &[] };
/// let refused = fit_one_class(&none, 0.5, &Options::default());
/// assert_eq!(refused, Err(Refusal::Samples));
/// # Ok::<(), Refusal>(())
/// ```
pub fn fit_one_class(samples: &OneClass, nu: f64, options: &Options) -> Result<Answer, Refusal> {
    let samples = *samples;
    Training::OneClass { samples, nu }.fit(options)
}

/// Trains a problem with every list given. The readings are the weights as they are: neither signed by label nor divided. So a decision
/// signs them:
///
/// ```
/// use altuliscia::{fit_general, General, Options, Problem};
///
/// let general = General {
///     problem: Problem { matrix: &[1.0, 0.0, 0.0, 1.0], labels: &[true, false] },
///     ceilings: &[1.0, 2.0],
///     alphas: &[0.0, 0.0],
///     linear: &[-1.0, -1.0],
///     nu_rule: false,
/// };
/// let answer = fit_general(&general, &Options::default())?;
/// assert_eq!(answer.home, [1.0, 1.0]);
///
/// let values = [0.75, 0.25];
/// let signs = general.problem.labels.iter().map(|&positive| if positive { 1.0 } else { -1.0 });
/// let terms = answer.home.iter().zip(signs).zip(values).map(|((weight, sign), value)| weight * sign * value);
/// assert_eq!(terms.sum::<f64>() - answer.rho, 0.5);
/// # Ok::<(), altuliscia::Refusal>(())
/// ```
pub fn fit_general(general: &General, options: &Options) -> Result<Answer, Refusal> {
    Training::General(*general).fit(options)
}

/// Trains as [`fit_general`] does, but as if the samples whose place in `retired` is true weren't there: every sample keeps its number,
/// and a retired one has weight 0 in both lists. What is given for it is judged as any other's, and has no say in the answer.
///
/// `retired` is as long as the labels. Shrinking must be off, else it is [`Refusal::RetiredShrinking`]; so both lists are the same.
/// Where every sample is retired, rho is NaN.
///
/// ```
/// use altuliscia::{fit_retired, General, Options, Problem};
///
/// let general = General {
///     problem: Problem {
///         matrix: &[1.0, 0.0, 7.0, 0.0, 1.0, 7.0, 7.0, 7.0, 7.0],
///         labels: &[true, false, false],
///     },
///     ceilings: &[1.0, 2.0, 2.0],
///     alphas: &[0.0, 0.0, 2.0],
///     linear: &[-1.0, -1.0, 5.0],
///     nu_rule: false,
/// };
/// let answer = fit_retired(&general, &[false, false, true], &Options::default())?;
/// assert_eq!(answer.home, [1.0, 1.0, 0.0]);
/// # Ok::<(), altuliscia::Refusal>(())
/// ```
pub fn fit_retired(
    general: &General,
    retired: &[bool],
    options: &Options,
) -> Result<Answer, Refusal> {
    let general = *general;
    Training::Retired { general, retired }.fit(options)
}

/// Trains as [`fit_c`] does, but as if the samples whose place in `retired` is true weren't there, as [`fit_retired`] has it. With
/// nobody retired it answers what [`fit_c`] does with shrinking off.
///
/// ```
/// use altuliscia::{fit_c_retired, Options, Problem, Refusal};
///
/// let problem = Problem {
///     matrix: &[1.0, 7.0, 0.0, 7.0, 7.0, 7.0, 0.0, 7.0, 1.0],
///     labels: &[true, false, false],
/// };
/// let withdrawn = [false, true, false];
/// let answer = fit_c_retired(&problem, 1.0, 1.0, &withdrawn, &Options::default())?;
/// assert_eq!(answer.home, [1.0, 0.0, -1.0]);
///
/// let shrinking = Options { shrinking: true, ..Options::default() };
/// let refused = fit_c_retired(&problem, 1.0, 1.0, &withdrawn, &shrinking);
/// assert_eq!(refused, Err(Refusal::RetiredShrinking));
/// # Ok::<(), Refusal>(())
/// ```
pub fn fit_c_retired(
    problem: &Problem,
    cpos: f64,
    cneg: f64,
    retired: &[bool],
    options: &Options,
) -> Result<Answer, Refusal> {
    let problem = *problem;
    Training::CRetired {
        problem,
        cpos,
        cneg,
        retired,
    }
    .fit(options)
}

/// What [`fit_c_retired`] answers: the library trains from lists, and these and the signs are set here.
fn c_retired(
    problem: &Problem,
    cpos: f64,
    cneg: f64,
    retired: &[bool],
    tuned: &Tuned,
) -> Result<Answer, Refusal> {
    let places = problem.labels.len().min(MOST_SAMPLES);
    let refused = costs_refused(cpos, cneg);
    // Where a cost is refused, every ceiling is bad: then it is the library that says so, or what comes before it.
    let ceiling = |positive: &bool| match (refused, positive) {
        (Some(_), _) => f64::NAN,
        (None, true) => cpos,
        (None, false) => cneg,
    };
    let ceilings: Vec<f64> = problem.labels[..places].iter().map(ceiling).collect();
    let general = General {
        problem: *problem,
        ceilings: &ceilings,
        alphas: &vec![0.0; places],
        linear: &vec![-1.0; places],
        nu_rule: false,
    };
    let trained = Training::Retired { general, retired }.fit_tuned(tuned);
    let mut answer = trained.map_err(|r| match (r, refused) {
        (Refusal::Ceiling { .. }, Some(cost)) => cost,
        _ => r,
    })?;
    for list in [&mut answer.crate_reading, &mut answer.home] {
        sign(list, problem.labels, retired);
    }
    Ok(answer)
}

/// The refusal that [`fit_c`] has for a cost, whether a sample has its label or not. The problem that is handed over never runs.
fn costs_refused(cpos: f64, cneg: f64) -> Option<Refusal> {
    let one = Problem {
        matrix: &[0.0],
        labels: &[true],
    };
    let never = Options {
        budget: 0,
        ..Options::default()
    };
    let refusal = fit_c(&one, cpos, cneg, &never).err();
    refusal.filter(|r| matches!(r, Refusal::Ceiling { .. }))
}

/// Negates the weights of negative samples. That of a retired one stays 0, and a NaN has no sign.
fn sign(weights: &mut [f64], labels: &[bool], retired: &[bool]) {
    for ((weight, positive), retired) in weights.iter_mut().zip(labels).zip(retired) {
        if !positive && !retired && !weight.is_nan() {
            *weight = -*weight;
        }
    }
}

#[cfg(test)]
mod tests {
    use super::*;

    #[test]
    fn only_weights_of_negative_samples_that_stand_are_negated() {
        let mut weights = [1.5, 1.5, 0.0, 0.0, f64::NAN];
        let labels = [true, false, false, false, false];
        sign(&mut weights, &labels, &[false, false, false, true, false]);
        let signed = [1.5, -1.5, -0.0, 0.0, f64::NAN];
        assert_eq!(weights.map(f64::to_bits), signed.map(f64::to_bits));
    }
}
