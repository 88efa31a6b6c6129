//! What is accepted, and yet is mostly a mistake or loses a promise: one place to ask before a training.
use crate::{Problem, Training, Tuned, MOST_SAMPLES};
use std::fmt;

/// What a fit takes without a word, and who trains should know.
#[derive(Clone, Copy, Debug, PartialEq)]
#[non_exhaustive]
pub enum Caution {
    /// The kernel matrix isn't symmetric. The library trains on it all the same; a kernel is symmetric.
    Asymmetric {
        /// The column of the entry that is farthest from its mirror image; it is below the row.
        column: usize,
        /// Its row.
        row: usize,
        /// That entry.
        entry: f64,
        /// Its mirror image, of column `row`, row `column`.
        mirrored: f64,
        /// How many entries below the diagonal differ from their mirror images.
        count: usize,
    },
    /// nu is above what the labels allow, by LIBSVM's rule: nu times the number of samples, halved, is above the number of those of the
    /// rarer label. LIBSVM refuses it.
    InfeasibleNu {
        /// nu.
        nu: f64,
        /// How many samples are positive.
        positive: usize,
        /// How many are negative.
        negative: usize,
    },
    /// The ceilings aren't all the same, so that it isn't promised that a weight lies between 0 and its ceiling.
    UnequalCeilings,
    /// Shrinking is on. 'Threshold' then speaks only of the samples still active, and objective and rho needn't be those of the weights
    /// (docs/PROMISES.md, 'What to do with it').
    Shrinking,
}

impl fmt::Display for Caution {
    fn fmt(&self, f: &mut fmt::Formatter<'_>) -> fmt::Result {
        match self {
            Caution::Asymmetric {
                column,
                row,
                entry,
                mirrored,
                count,
            } => write!(
                f,
                "the kernel matrix isn't symmetric: column {}, row {}, counted from 0, is {} and its mirror image {}; {} below the diagonal differ",
                column, row, entry, mirrored, count
            ),
            Caution::InfeasibleNu {
                nu,
                positive,
                negative,
            } => write!(
                f,
                "nu {} can't be met: half of nu times {} samples is above the {} of the rarer label; LIBSVM refuses it",
                nu,
                positive + negative,
                positive.min(negative)
            ),
            Caution::UnequalCeilings => f.write_str(
                "the ceilings differ: it isn't promised then that a weight lies between 0 and its ceiling",
            ),
            Caution::Shrinking => f.write_str(
                "shrinking is on: 'threshold' then speaks only of the samples still active, and objective and rho needn't be those of the weights; train with it off",
            ),
        }
    }
}

impl Training<'_> {
    /// What to know before this is trained: nothing, where all is well. What a fit refuses is the fit's to tell. It takes about as long as to
    /// read the matrix twice. Of options it knows nothing: [`Training::cautions_tuned`] does.
    ///
    /// ```
    /// use altuliscia::{Caution, Problem, Training};
    ///
    /// let problem = Problem { matrix: &[1.0, 0.25, 0.5, 1.0], labels: &[true, false] };
    /// let told = Training::C { problem, cpos: 1.0, cneg: 2.0 }.cautions();
    /// assert!(matches!(told[0], Caution::Asymmetric { column: 0, row: 1, entry, .. } if entry == 0.25));
    /// assert_eq!(told[1], Caution::UnequalCeilings);
    ///
    /// let problem = Problem { matrix: &[1.0, 0.5, 0.5, 1.0], ..problem };
    /// assert_eq!(Training::C { problem, cpos: 1.0, cneg: 1.0 }.cautions(), []);
    /// ```
    pub fn cautions(&self) -> Vec<Caution> {
        let asked = [self.asymmetric(), self.infeasible(), self.unequal()];
        asked.into_iter().flatten().collect()
    }

    /// The same of a training with these options: [`Caution::Shrinking`] stands last, where shrinking is on and isn't refused.
    ///
    /// ```
    /// use altuliscia::{Caution, Options, Problem, Training, Tuned};
    ///
    /// let problem = Problem { matrix: &[1.0, 0.5, 0.5, 1.0], labels: &[true, false] };
    /// let training = Training::C { problem, cpos: 1.0, cneg: 1.0 };
    /// let tuned = Tuned::from(Options { shrinking: true, ..Options::default() });
    /// assert_eq!(training.cautions_tuned(&tuned), [Caution::Shrinking]);
    /// assert_eq!(training.cautions_tuned(&Tuned::default()), []);
    /// ```
    pub fn cautions_tuned(&self, tuned: &Tuned) -> Vec<Caution> {
        let refused = matches!(self, Training::CRetired { .. } | Training::Retired { .. });
        let shrinks = tuned.options.shrinking && !refused;
        let mut told = self.cautions();
        told.extend(shrinks.then_some(Caution::Shrinking));
        told
    }

    fn matrix(&self) -> &[f64] {
        match self {
            Training::OneClass { samples, .. } => samples.matrix,
            Training::C { problem, .. }
            | Training::CRetired { problem, .. }
            | Training::Nu { problem, .. } => problem.matrix,
            Training::General(general) | Training::Retired { general, .. } => {
                general.problem.matrix
            }
        }
    }

    /// Whether a sample isn't retired.
    fn stands(&self, sample: usize) -> bool {
        match self {
            Training::CRetired { retired, .. } | Training::Retired { retired, .. } => {
                retired.get(sample) != Some(&true)
            }
            _ => true,
        }
    }

    /// Of the samples that stand: what is given for others has no say.
    fn asymmetric(&self) -> Option<Caution> {
        let (n, matrix) = (self.samples(), self.matrix());
        if n > MOST_SAMPLES || matrix.len() != n * n {
            return None;
        }
        let (mut count, mut most) = (0, 0.0);
        let mut worst = None;
        for column in (0..n).filter(|k| self.stands(*k)) {
            for row in (column + 1..n).filter(|k| self.stands(*k)) {
                let (entry, mirrored) = (matrix[column * n + row], matrix[row * n + column]);
                let apart = (entry - mirrored).abs();
                if apart > 0.0 {
                    count += 1;
                    if apart > most {
                        most = apart;
                        worst = Some((column, row, entry, mirrored));
                    }
                }
            }
        }
        worst.map(|(column, row, entry, mirrored)| Caution::Asymmetric {
            column,
            row,
            entry,
            mirrored,
            count,
        })
    }

    fn infeasible(&self) -> Option<Caution> {
        let (Problem { labels, .. }, nu) = match *self {
            Training::Nu { problem, nu } if nu > 0.0 && nu <= 1.0 => (problem, nu),
            _ => return None,
        };
        let positive = labels.iter().filter(|positive| **positive).count();
        let negative = labels.len() - positive;
        let above = nu * labels.len() as f64 / 2.0 > positive.min(negative) as f64;
        above.then_some(Caution::InfeasibleNu {
            nu,
            positive,
            negative,
        })
    }

    fn unequal(&self) -> Option<Caution> {
        // A NaN is the fit's to refuse.
        let differ = |a: &f64, b: &f64| (a - b).abs() > 0.0;
        let told = match self {
            Training::C { cpos, cneg, .. } | Training::CRetired { cpos, cneg, .. } => {
                differ(cpos, cneg)
            }
            Training::General(general) | Training::Retired { general, .. } => {
                let all = general.ceilings.iter().enumerate();
                let mut standing = all.filter(|(k, _)| self.stands(*k)).map(|(_, b)| b);
                let first = standing.next();
                first.map_or(false, |first| standing.any(|b| differ(first, b)))
            }
            _ => false,
        };
        told.then_some(Caution::UnequalCeilings)
    }
}
