//! Several languages: the votes of a training for each two of them.
use crate::{call, FEWEST_LANGUAGES, MOST_LANGUAGES};
use std::fmt;

/// What the votes on one caption are taken of: a training for each two languages, in the order of [`pairs`], with the first of the two
/// for its positive label. Nothing of it is copied.
#[derive(Clone, Copy, Debug)]
pub struct Panel<'a> {
    /// How many languages there are, [`FEWEST_LANGUAGES`] to [`MOST_LANGUAGES`].
    pub languages: usize,
    /// The coefficients of every pair, one pair after another: `home` of its training, signed by label.
    pub coefficients: &'a [f64],
    /// The kernel values of the caption with each pair's samples, in the same places.
    pub values: &'a [f64],
    /// How many coefficients each pair has. It may be none: then its sum is 0.
    pub coefficient_counts: &'a [u64],
    /// How many kernel values each pair has, which must be as many. It may be the same list.
    pub value_counts: &'a [u64],
    /// The rho of each pair.
    pub rhos: &'a [f64],
}

/// The votes on one caption. Languages are numbered from 1 on.
#[derive(Clone, Copy, Debug, PartialEq, Eq, Hash)]
pub struct Votes {
    winner: usize,
    languages: usize,
    counts: [u64; MOST_LANGUAGES],
}

impl Votes {
    /// The language with the most votes; of equals the lowest number.
    pub fn winner(&self) -> usize {
        self.winner
    }

    /// The votes of each language, that of language 1 first. They total the number of pairs.
    pub fn counts(&self) -> &[u64] {
        &self.counts[..self.languages]
    }

    /// The votes of one language, by its number; 0 where there is no such language.
    pub fn of(&self, language: usize) -> u64 {
        let place = language.checked_sub(1);
        place.map_or(0, |k| self.counts().get(k).copied().unwrap_or(0))
    }

    /// The languages that share the most votes, lowest first: the winner alone, unless there is a tie.
    pub fn ties(&self) -> impl Iterator<Item = usize> + '_ {
        let most = self.of(self.winner);
        (1..=self.languages).filter(move |language| self.of(*language) == most)
    }

    /// The language with the most votes but for the winner; of equals the lowest number.
    pub fn runner_up(&self) -> usize {
        let others = (1..=self.languages).filter(|language| *language != self.winner);
        let better = |best, other| match self.of(other) > self.of(best) {
            true => other,
            false => best,
        };
        others.reduce(better).unwrap_or(self.winner)
    }
}

/// Why there are no votes. The numbers are the votes' own: 1 is of languages here, not of samples. Where several apply, it is the first.
#[derive(Clone, Copy, Debug, PartialEq, Eq, Hash)]
#[non_exhaustive]
pub enum NoVotes {
    /// 1: the number of languages.
    Languages,
    /// 2: the two counts of a pair differ.
    Counts {
        /// The first such pair, counted from 0: its place in [`pairs`].
        pair: u64,
    },
    /// 2: a list's length.
    Length,
    /// A number that this crate doesn't know.
    Other {
        /// The refusal's number.
        number: u64,
        /// Its index.
        index: u64,
    },
}

impl NoVotes {
    /// The number that `altuliscia_votes` gives.
    pub fn number(&self) -> u64 {
        match *self {
            NoVotes::Languages => 1,
            NoVotes::Counts { .. } | NoVotes::Length => 2,
            NoVotes::Other { number, .. } => number,
        }
    }

    /// The pair whose two counts differ, else 0.
    pub fn index(&self) -> u64 {
        match *self {
            NoVotes::Counts { pair } => pair,
            NoVotes::Other { index, .. } => index,
            _ => 0,
        }
    }
}

impl fmt::Display for NoVotes {
    #[rustfmt::skip]
    fn fmt(&self, f: &mut fmt::Formatter<'_>) -> fmt::Result {
        match self {
            NoVotes::Languages => write!(f, "refusal 1: The number of languages is below 2 or above 12: lend 2 to 12 languages."),
            NoVotes::Counts { pair } => write!(f, "refusal 2 at pair {}, counted from 0: It has more coefficients than kernel values, or fewer: lend as many of both.", pair),
            NoVotes::Length => write!(f, "refusal 2: A list has the wrong length: lend two counts and a rho for each pair, and as many coefficients and kernel values as the counts say."),
            NoVotes::Other { number, .. } => write!(f, "refusal {}: This refusal is newer than this crate: look it up in altuliscia.h.", number),
        }
    }
}

impl std::error::Error for NoVotes {}

/// The pairs of so many languages in their order, by the languages' numbers: (1,2), (1,3) and so on, then (2,3) and so on.
///
/// ```
/// let all: Vec<(usize, usize)> = altuliscia::pairs(3).collect();
/// assert_eq!(all, [(1, 2), (1, 3), (2, 3)]);
/// assert_eq!(altuliscia::pairs(12).count(), 66);
/// ```
pub fn pairs(languages: usize) -> impl Iterator<Item = (usize, usize)> {
    (1..=languages)
        .flat_map(move |first| (first + 1..=languages).map(move |second| (first, second)))
}

/// Which language a caption is in, by the library's own sums and count (docs/RULE.md, 'Several languages').
///
/// A pair's sum is formed in the order of its coefficients, from 0, over all of them, also those that are 0. Where the sum less rho is 0 or
/// above, the pair votes for its first language, else, and where it is NaN, for its second. The most votes win; of equals the lowest
/// number. No number is refused: NaN and infinities go through the sums.
///
/// ```
/// use altuliscia::{votes, NoVotes, Panel};
///
/// let counts = [2, 1, 0];
/// let panel = Panel {
///     languages: 3,
///     coefficients: &[0.5, -0.5, 1.0],
///     values: &[1.0, 1.0, 0.5],
///     coefficient_counts: &counts,
///     value_counts: &counts,
///     rhos: &[0.0, 1.0, f64::NAN],
/// };
/// let found = votes(&panel)?;
/// assert_eq!((found.winner(), found.counts()), (3, &[1, 0, 2][..]));
/// assert_eq!((found.runner_up(), found.ties().count()), (1, 1));
///
/// let fewer = Panel { value_counts: &[2, 0, 1], ..panel };
/// assert_eq!(votes(&fewer), Err(NoVotes::Counts { pair: 1 }));
/// # Ok::<(), NoVotes>(())
/// ```
pub fn votes(panel: &Panel) -> Result<Votes, NoVotes> {
    let (result, index, winner, counts) = call::votes(panel);
    match result {
        0 => Ok(Votes {
            winner: winner as usize,
            languages: panel.languages,
            counts,
        }),
        1 => Err(NoVotes::Languages),
        2 if differ(panel, index) => Err(NoVotes::Counts { pair: index }),
        2 => Err(NoVotes::Length),
        number => Err(NoVotes::Other { number, index }),
    }
}

/// Whether refusal 2 with that index is of a pair's two counts. It is, exactly where both lists have a count for each pair, which is judged
/// before, and those of this one differ: lengths are judged after.
fn differ(panel: &Panel, index: u64) -> bool {
    let (held, valued) = (panel.coefficient_counts, panel.value_counts);
    let known = (FEWEST_LANGUAGES..=MOST_LANGUAGES).contains(&panel.languages);
    let all = known.then(|| pairs(panel.languages).count());
    let place = index as usize;
    all == Some(held.len()) && all == Some(valued.len()) && held.get(place) != valued.get(place)
}

#[cfg(test)]
mod tests {
    use super::*;

    fn found(winner: usize, counts: &[u64]) -> Votes {
        let mut all = [0; MOST_LANGUAGES];
        all[..counts.len()].copy_from_slice(counts);
        Votes {
            winner,
            languages: counts.len(),
            counts: all,
        }
    }

    #[test]
    fn who_shares_the_most_and_who_comes_next() {
        for (counts, ties, next) in [
            (&[1, 0][..], &[1][..], 2),
            (&[0, 1], &[2], 1),
            (&[1, 1, 1], &[1, 2, 3], 2),
            (&[0, 2, 1, 3, 3], &[4, 5], 5),
            (&[0, 1, 2], &[3], 2),
            (&[0, 0, 1], &[3], 1),
            (&[1, 2, 2, 1], &[2, 3], 3),
            (&[3, 1, 1, 1], &[1], 2),
        ] {
            let votes = found(ties[0], counts);
            assert_eq!(votes.ties().collect::<Vec<_>>(), ties);
            assert_eq!(votes.runner_up(), next, "{:?}", counts);
            assert_eq!(votes.counts(), counts);
        }
        let votes = found(1, &[1, 0]);
        assert_eq!([0, 1, 2, 3].map(|k| votes.of(k)), [0, 1, 0, 0]);
    }

    #[test]
    fn a_refusal_keeps_its_number_and_index() {
        for (refusal, number, index, told) in [
            (NoVotes::Languages, 1, 0, "refusal 1: The number of lang"),
            (NoVotes::Counts { pair: 65 }, 2, 65, "refusal 2 at pair 65,"),
            (NoVotes::Length, 2, 0, "refusal 2: A list has the wrong"),
            (
                NoVotes::Other {
                    number: 3,
                    index: 7,
                },
                3,
                7,
                "refusal 3: This refusal is newer",
            ),
        ] {
            assert_eq!((refusal.number(), refusal.index()), (number, index));
            assert!(refusal.to_string().starts_with(told), "{}", refusal);
        }
    }
}
