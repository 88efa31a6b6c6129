//! A training with its answer: coefficients that are signed whatever was trained, decisions, and whether to release it.
use crate::{sign, Answer, ExitReason, Refusal, Training, Tuned};
use std::fmt;

/// What [`Training::train`] hands back.
///
/// ```
/// use altuliscia::{General, Problem, Training, Tuned};
///
/// let general = General {
///     problem: Problem { matrix: &[1.0, 0.0, 0.0, 1.0], labels: &[true, false] },
///     ceilings: &[1.0, 2.0],
///     alphas: &[0.0, 0.0],
///     linear: &[-1.0, -1.0],
///     nu_rule: false,
/// };
/// let trained = Training::General(general).train(&Tuned::default())?;
/// assert_eq!(trained.answer.home, [1.0, 1.0]); // as the general fit answers: without a sign
/// assert_eq!(trained.coefficients(), [1.0, -1.0]);
/// assert_eq!((trained.rho(), trained.unfit()), (0.0, None));
///
/// assert_eq!(trained.decision(&[0.75, 0.25])?, 0.5);
/// assert_eq!(trained.decisions([[0.75, 0.25], [0.0, 1.0]])?, [0.5, -1.0]);
/// assert!(trained.decision(&[0.75]).is_err());
/// # Ok::<(), Box<dyn std::error::Error>>(())
/// ```
#[derive(Clone, Debug, PartialEq)]
#[non_exhaustive]
pub struct Trained {
    /// What the fit answers. Its `home` isn't signed where [`Training::General`] or [`Training::Retired`] was trained: for a decision ask
    /// for the coefficients.
    pub answer: Answer,
    coefficients: Vec<f64>,
}

impl Training<'_> {
    /// Trains it, and keeps what a decision needs.
    pub fn train(&self, tuned: &Tuned) -> Result<Trained, Refusal> {
        let answer = self.fit_tuned(tuned)?;
        let mut coefficients = answer.home.clone();
        match *self {
            Training::General(general) => {
                let nobody = vec![false; coefficients.len()];
                sign(&mut coefficients, general.problem.labels, &nobody);
            }
            Training::Retired { general, retired } => {
                sign(&mut coefficients, general.problem.labels, retired);
            }
            _ => {}
        }
        Ok(Trained {
            answer,
            coefficients,
        })
    }
}

impl Trained {
    /// Each sample's weight in the samples' order, negative where its label is, whatever was trained; under nu divided by r. That of a
    /// retired sample is 0.
    pub fn coefficients(&self) -> &[f64] {
        &self.coefficients
    }

    /// The offset.
    pub fn rho(&self) -> f64 {
        self.answer.rho
    }

    /// Why it is not to be released, if it isn't; see [`Answer::unfit`].
    pub fn unfit(&self) -> Option<Unfit> {
        self.answer.unfit()
    }

    /// Whether nothing speaks against its release.
    pub fn releasable(&self) -> bool {
        self.unfit().is_none()
    }

    /// [`decision`] by this training, on something new with these kernel values, one for each sample.
    pub fn decision(&self, values: &[f64]) -> Result<f64, WrongLength> {
        decision(&self.coefficients, self.answer.rho, values)
    }

    /// The decision on each of several captions, by its kernel values. Where one has the wrong length, there are none.
    pub fn decisions<C>(&self, captions: C) -> Result<Vec<f64>, WrongLength>
    where
        C: IntoIterator,
        C::Item: AsRef<[f64]>,
    {
        let one = |(caption, values): (usize, C::Item)| {
            let found = self.decision(values.as_ref());
            found.map_err(|wrong| WrongLength { caption, ..wrong })
        };
        captions.into_iter().enumerate().map(one).collect()
    }
}

impl Answer {
    /// Why it is not to be released, if it isn't: by docs/PROMISES.md, 'What to do with it', or since there is no support vector. Where
    /// several apply, it is the first in the order of [`Unfit`].
    pub fn unfit(&self) -> Option<Unfit> {
        if self.reason == ExitReason::Iterations {
            return Some(Unfit::Budget);
        }
        match self.r {
            Some(r) if !divides(r) => Some(Unfit::Scale),
            _ if !self.rho.is_finite() => Some(Unfit::Rho),
            _ if self.support == 0 => Some(Unfit::NoSupport),
            _ => None,
        }
    }

    /// Whether nothing speaks against its release.
    pub fn releasable(&self) -> bool {
        self.unfit().is_none()
    }
}

/// Whether weights may be divided by it. None is above 1 before that, so each is finite where the inverse is.
fn divides(r: f64) -> bool {
    r > 0.0 && r.is_finite() && r.recip().is_finite()
}

/// Why an answer is not to be released.
#[derive(Clone, Copy, Debug, PartialEq, Eq, Hash)]
#[non_exhaustive]
pub enum Unfit {
    /// The budget ran out.
    Budget,
    /// Under nu: r isn't above 0, or it or its inverse isn't finite. Where it is below 0, each weight has the other class's sign, so the
    /// model sorts turned round; else what was divided by it is no weight.
    Scale,
    /// Rho is not finite.
    Rho,
    /// No weight is above [`SUPPORT_LIMIT`](crate::SUPPORT_LIMIT) in magnitude.
    NoSupport,
}

impl fmt::Display for Unfit {
    fn fmt(&self, f: &mut fmt::Formatter<'_>) -> fmt::Result {
        f.write_str(match self {
            Unfit::Budget => "the budget ran out before the threshold was reached",
            Unfit::Scale => {
                "r, by which nu's weights are divided, isn't above 0, or it or its inverse isn't finite"
            }
            Unfit::Rho => "rho is not finite",
            Unfit::NoSupport => "there is no support vector",
        })
    }
}

/// There isn't one kernel value for each coefficient.
#[derive(Clone, Copy, Debug, PartialEq, Eq, Hash)]
#[non_exhaustive]
pub struct WrongLength {
    /// Which caption, counted from 0; 0 where there is but one.
    pub caption: usize,
    /// How many kernel values it has.
    pub values: usize,
    /// How many it should have.
    pub wanted: usize,
}

impl WrongLength {
    pub(crate) fn judged(values: &[f64], wanted: usize) -> Result<(), WrongLength> {
        let wrong = WrongLength {
            caption: 0,
            values: values.len(),
            wanted,
        };
        match values.len() == wanted {
            true => Ok(()),
            false => Err(wrong),
        }
    }
}

impl fmt::Display for WrongLength {
    fn fmt(&self, f: &mut fmt::Formatter<'_>) -> fmt::Result {
        write!(
            f,
            "caption {}, counted from 0, has {} kernel values: give {}, one for each sample",
            self.caption, self.values, self.wanted
        )
    }
}

impl std::error::Error for WrongLength {}

/// The decision on something new: the sum over the samples, in their order from +0, of coefficient times kernel value, less rho. Each product
/// and each addition is rounded by itself. From 0 on it is positive, under one class: of the class; else, NaN too, negative.
///
/// A value beside a coefficient of 0 is passed over, as `altuliscia_decide` of the header has it, and need not be known.
/// [`votes`](crate::votes) passes over none. So its sum is another one only where a NaN or an infinity stands beside a 0.
///
/// ```
/// assert_eq!(altuliscia::decision(&[1.0, 0.0, -1.0], 0.25, &[0.75, f64::NAN, 0.25])?, 0.25);
/// assert!(altuliscia::decision(&[1.0, 0.0, -1.0], 0.25, &[0.75, 0.25]).is_err());
/// # Ok::<(), altuliscia::WrongLength>(())
/// ```
pub fn decision(coefficients: &[f64], rho: f64, values: &[f64]) -> Result<f64, WrongLength> {
    WrongLength::judged(values, coefficients.len())?;
    let mut sum = 0.0;
    for (coefficient, value) in coefficients.iter().zip(values) {
        if *coefficient != 0.0 {
            sum += coefficient * value;
        }
    }
    Ok(sum - rho)
}
