//! Several languages as one value: a training for each two of them, and the votes on a caption.
use crate::{
    decision, pairs, votes, Caution, NoVotes, Panel, Problem, Refusal, Trained, Training, Tuned,
    Unfit, Votes, WrongLength, FEWEST_LANGUAGES, MOST_LANGUAGES,
};
use std::fmt;

/// Captions of two to twelve languages. It begins as [`Corpus::new`], with nobody retired: later versions may add fields.
#[derive(Clone, Copy, Debug)]
#[non_exhaustive]
pub struct Corpus<'a> {
    /// The kernel matrix of all captions, column by column, as in [`Problem`]. There may be more than 512 of them, if no two languages
    /// have more.
    pub matrix: &'a [f64],
    /// The number of each caption's language, from 1 on.
    pub labels: &'a [usize],
    /// True where a caption is retired; an empty list where nobody is.
    pub retired: &'a [bool],
}

impl<'a> Corpus<'a> {
    /// Captions of which nobody is retired.
    pub fn new(matrix: &'a [f64], labels: &'a [usize]) -> Corpus<'a> {
        Corpus {
            matrix,
            labels,
            retired: &[],
        }
    }

    /// How many languages there are: that of the highest label.
    fn languages(&self) -> Result<usize, NoSorter> {
        let (n, labels) = (self.labels.len(), self.labels);
        let known = |label: &usize| (1..=MOST_LANGUAGES).contains(label);
        if let Some(sample) = labels.iter().position(|label| !known(label)) {
            return Err(NoSorter::Label { sample });
        }
        let languages = labels.iter().copied().max().unwrap_or(0);
        if languages < FEWEST_LANGUAGES {
            return Err(NoSorter::Languages);
        }
        if let Some(language) = (1..=languages).find(|language| !labels.contains(language)) {
            return Err(NoSorter::Missing { language });
        }
        if n.checked_mul(n) != Some(self.matrix.len()) {
            return Err(NoSorter::Matrix { captions: n });
        }
        match self.retired.len() == n || self.retired.is_empty() {
            true => Ok(languages),
            false => Err(NoSorter::Retired { captions: n }),
        }
    }

    /// What is given for the captions of two languages, by their numbers.
    fn part(&self, both: (usize, usize)) -> Part {
        let own = |k: &usize| [both.0, both.1].contains(&self.labels[*k]);
        let samples: Vec<usize> = (0..self.labels.len()).filter(own).collect();
        let column = |c: &usize| &self.matrix[c * self.labels.len()..];
        let columns = samples.iter().map(column);
        Part {
            matrix: columns
                .flat_map(|column| samples.iter().map(move |r| column[*r]))
                .collect(),
            labels: samples.iter().map(|k| self.labels[*k] == both.0).collect(),
            retired: samples
                .iter()
                .filter_map(|k| self.retired.get(*k).copied())
                .collect(),
            samples,
        }
    }
}

/// The captions of a pair of languages. The list of the retired is empty where that of all is.
struct Part {
    samples: Vec<usize>,
    matrix: Vec<f64>,
    labels: Vec<bool>,
    retired: Vec<bool>,
}

impl Part {
    fn trained(&self, (first, second): (usize, usize), way: Way, tuned: &Tuned) -> Found {
        let problem = Problem {
            matrix: &self.matrix,
            labels: &self.labels,
        };
        let training = match way {
            Way::Nu(nu) => Training::Nu { problem, nu },
            Way::C(cost) if self.retired.is_empty() => Training::C {
                problem,
                cpos: cost,
                cneg: cost,
            },
            Way::C(cost) => Training::CRetired {
                problem,
                cpos: cost,
                cneg: cost,
                retired: &self.retired,
            },
        };
        let trained = training.train(tuned)?;
        let cautions = training.cautions_tuned(tuned).into_iter();
        Ok(Pair {
            first,
            second,
            cautions: cautions.map(|caution| self.placed(caution)).collect(),
            samples: self.samples.clone(),
            trained,
        })
    }

    /// A caution with the numbers that the samples have among all.
    fn placed(&self, mut caution: Caution) -> Caution {
        if let Caution::Asymmetric { column, row, .. } = &mut caution {
            (*column, *row) = (self.samples[*column], self.samples[*row]);
        }
        caution
    }

    /// A refusal with the place that an entry has in the matrix of all, whose columns are so long.
    fn refused(&self, refusal: Refusal, n: usize) -> Refusal {
        let own = self.samples.len();
        match refusal {
            Refusal::Kernel { index } => {
                let (column, row) = (index as usize / own, index as usize % own);
                let index = self.samples[column] * n + self.samples[row];
                Refusal::Kernel {
                    index: index as u64,
                }
            }
            other => other,
        }
    }
}

type Found = Result<Pair, Refusal>;

/// How every pair is trained.
#[derive(Clone, Copy, Debug, PartialEq)]
#[non_exhaustive]
pub enum Way {
    /// With this ceiling for both languages, as [`fit_c`](crate::fit_c) and [`fit_c_retired`](crate::fit_c_retired) have it.
    C(f64),
    /// With this nu, as [`fit_nu`](crate::fit_nu) has it. Nobody may be retired then.
    Nu(f64),
}

/// Two languages and their training, for which the first is positive.
#[derive(Clone, Debug, PartialEq)]
#[non_exhaustive]
pub struct Pair {
    /// The number of the first language, from 1 on.
    pub first: usize,
    /// The number of the second.
    pub second: usize,
    /// The captions of the two, counted from 0 among all: sample s of the training is caption `samples[s]`.
    pub samples: Vec<usize>,
    /// Their training.
    pub trained: Trained,
    /// What was to be known before it, with the captions' numbers among all.
    pub cautions: Vec<Caution>,
}

/// Sorts captions into two to twelve languages: a training for each two of them, and the library's own count of their votes.
///
/// ```
/// use altuliscia::{Corpus, Sorter, Tuned, Way};
///
/// // One caption of each of three languages, each like itself alone.
/// let corpus = Corpus::new(&[1.0, 0.0, 0.0, 0.0, 1.0, 0.0, 0.0, 0.0, 1.0], &[1, 2, 3]);
/// let sorter = Sorter::train(&corpus, Way::C(1.0), &Tuned::default())?;
/// assert!(sorter.releasable());
///
/// // Something new, by its kernel values with the three captions.
/// let found = sorter.sort(&[0.25, 0.75, 0.5])?;
/// assert_eq!((found.winner(), found.votes.counts()), (2, &[0, 2, 1][..]));
/// assert_eq!(found.decisions, [-0.5, -0.25, 0.25]);
/// assert!(!found.tied() && sorter.sort(&[0.5, 0.5]).is_err());
/// # Ok::<(), Box<dyn std::error::Error>>(())
/// ```
#[derive(Clone, Debug, PartialEq)]
pub struct Sorter {
    languages: usize,
    captions: usize,
    pairs: Vec<Pair>,
    /// What goes to the votes: of each pair the coefficients that aren't 0, with their captions.
    coefficients: Vec<f64>,
    places: Vec<usize>,
    counts: Vec<u64>,
    rhos: Vec<f64>,
}

impl Sorter {
    /// Trains every pair.
    pub fn train(corpus: &Corpus, way: Way, tuned: &Tuned) -> Result<Sorter, NoSorter> {
        let languages = corpus.languages()?;
        if matches!(way, Way::Nu(_)) && corpus.retired.contains(&true) {
            return Err(NoSorter::RetiredNu);
        }
        let captions = corpus.labels.len();
        let one = |both: (usize, usize)| {
            let part = corpus.part(both);
            let found = part.trained(both, way, tuned);
            found.map_err(|refusal| NoSorter::Refused {
                first: both.0,
                second: both.1,
                refusal: part.refused(refusal, captions),
            })
        };
        let trained: Result<Vec<Pair>, NoSorter> = pairs(languages).map(one).collect();
        Ok(Sorter::of(languages, captions, trained?))
    }

    fn of(languages: usize, captions: usize, pairs: Vec<Pair>) -> Sorter {
        let (mut coefficients, mut places, mut counts) = (Vec::new(), Vec::new(), Vec::new());
        for pair in &pairs {
            let all = pair.trained.coefficients().iter().zip(&pair.samples);
            let kept: Vec<(&f64, &usize)> = all.filter(|(c, _)| **c != 0.0).collect();
            counts.push(kept.len() as u64);
            coefficients.extend(kept.iter().map(|(c, _)| **c));
            places.extend(kept.iter().map(|(_, place)| **place));
        }
        Sorter {
            languages,
            captions,
            rhos: pairs.iter().map(|pair| pair.trained.rho()).collect(),
            pairs,
            coefficients,
            places,
            counts,
        }
    }

    /// How many languages there are.
    pub fn languages(&self) -> usize {
        self.languages
    }

    /// How many captions were given to train on, retired ones too: so many kernel values [`Sorter::sort`] wants.
    pub fn captions(&self) -> usize {
        self.captions
    }

    /// The pairs in the order of [`pairs`], with their trainings.
    pub fn pairs(&self) -> &[Pair] {
        &self.pairs
    }

    /// The pairs that are not to be released, each with why.
    pub fn unfit(&self) -> impl Iterator<Item = (&Pair, Unfit)> + '_ {
        let told = |pair| Some((pair, Pair::unfit(pair)?));
        self.pairs.iter().filter_map(told)
    }

    /// Whether nothing speaks against the release of any pair.
    pub fn releasable(&self) -> bool {
        self.unfit().next().is_none()
    }

    /// Which language a caption is in, by its kernel values with all captions that were given to train on, in their order.
    ///
    /// A value beside a coefficient of 0 is passed over, as [`decision`] does: so the vote of a pair is always that of its decision, and the
    /// value of a retired caption need not be known.
    pub fn sort(&self, values: &[f64]) -> Result<Verdict, Unsorted> {
        WrongLength::judged(values, self.captions).map_err(Unsorted::Values)?;
        let values: Vec<f64> = self.places.iter().map(|place| values[*place]).collect();
        let panel = Panel {
            languages: self.languages,
            coefficients: &self.coefficients,
            values: &values,
            coefficient_counts: &self.counts,
            value_counts: &self.counts,
            rhos: &self.rhos,
        };
        let votes = votes(&panel).map_err(Unsorted::Votes)?;
        let mut decisions = Vec::with_capacity(self.rhos.len());
        let mut from = 0;
        for (count, rho) in self.counts.iter().zip(&self.rhos) {
            let to = from + *count as usize;
            let found = decision(&self.coefficients[from..to], *rho, &values[from..to]);
            decisions.push(found.map_err(Unsorted::Values)?);
            from = to;
        }
        Ok(Verdict { votes, decisions })
    }

    /// Sorts several captions. Where one has the wrong length, none is sorted.
    pub fn sort_all<C>(&self, captions: C) -> Result<Vec<Verdict>, Unsorted>
    where
        C: IntoIterator,
        C::Item: AsRef<[f64]>,
    {
        let one = |(caption, values): (usize, C::Item)| {
            self.sort(values.as_ref()).map_err(|why| match why {
                Unsorted::Values(wrong) => Unsorted::Values(WrongLength { caption, ..wrong }),
                other => other,
            })
        };
        captions.into_iter().enumerate().map(one).collect()
    }
}

impl Pair {
    /// Why its training is not to be released, if it isn't.
    pub fn unfit(&self) -> Option<Unfit> {
        self.trained.unfit()
    }
}

/// Where a caption was sorted to.
#[derive(Clone, Debug, PartialEq)]
#[non_exhaustive]
pub struct Verdict {
    /// The votes, with winner, runner-up and ties.
    pub votes: Votes,
    /// The decision of each pair, in the order of [`pairs`]: from 0 on it has voted for its first language, else, NaN too, for its second.
    pub decisions: Vec<f64>,
}

impl Verdict {
    /// The number of the language with the most votes; of equals the lowest.
    pub fn winner(&self) -> usize {
        self.votes.winner()
    }

    /// Whether another language has as many votes: then the winner has won by its number alone.
    pub fn tied(&self) -> bool {
        self.votes.ties().count() > 1
    }
}

/// Why there is no sorter.
#[derive(Clone, Copy, Debug, PartialEq, Eq, Hash)]
#[non_exhaustive]
pub enum NoSorter {
    /// A label is no number from 1 to 12.
    Label {
        /// The first such caption, counted from 0.
        sample: usize,
    },
    /// There are fewer than two languages.
    Languages,
    /// A language has no caption, though a later one has.
    Missing {
        /// Its number.
        language: usize,
    },
    /// The matrix hasn't an entry for each two captions.
    Matrix {
        /// How many captions there are.
        captions: usize,
    },
    /// The list of the retired is neither empty nor as long as the labels.
    Retired {
        /// How many captions there are.
        captions: usize,
    },
    /// Somebody is retired, and training goes by nu.
    RetiredNu,
    /// The training of a pair was refused.
    Refused {
        /// The pair's first language.
        first: usize,
        /// Its second.
        second: usize,
        /// The refusal. The index of a kernel entry is its place in the matrix of all captions.
        refusal: Refusal,
    },
}

impl fmt::Display for NoSorter {
    #[rustfmt::skip]
    fn fmt(&self, f: &mut fmt::Formatter<'_>) -> fmt::Result {
        match self {
            NoSorter::Label { sample } => write!(f, "the label of caption {}, counted from 0, is below 1 or above 12: number the languages from 1 on", sample),
            NoSorter::Languages => write!(f, "there are fewer than two languages"),
            NoSorter::Missing { language } => write!(f, "language {} has no caption: number the languages from 1 on without a gap", language),
            NoSorter::Matrix { captions } => write!(f, "the matrix hasn't {0} times {0} entries, as {0} labels say", captions),
            NoSorter::Retired { captions } => write!(f, "the list of the retired is neither empty nor as long as the {} labels", captions),
            NoSorter::RetiredNu => write!(f, "a caption is retired, and only C trains without it"),
            NoSorter::Refused { first, second, refusal } => write!(f, "languages {} and {}: {}", first, second, refusal),
        }
    }
}

impl std::error::Error for NoSorter {}

/// Why a caption wasn't sorted.
#[derive(Clone, Copy, Debug, PartialEq, Eq, Hash)]
#[non_exhaustive]
pub enum Unsorted {
    /// It hasn't a kernel value for each caption that was given to train on.
    Values(WrongLength),
    /// The votes were refused, which no sorter leads to.
    Votes(NoVotes),
}

impl fmt::Display for Unsorted {
    fn fmt(&self, f: &mut fmt::Formatter<'_>) -> fmt::Result {
        match self {
            Unsorted::Values(wrong) => wrong.fmt(f),
            Unsorted::Votes(why) => why.fmt(f),
        }
    }
}

impl std::error::Error for Unsorted {}
