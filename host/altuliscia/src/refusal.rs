//! Refusals: numbers, indices and what each says. The sentences are those of include/altuliscia.h.
use std::fmt;

/// Why a call was refused. Where several apply, it is the first in the order 1 to 10, 14, 12, 13; 11 comes in the run.
#[derive(Clone, Copy, Debug, PartialEq, Eq, Hash)]
#[non_exhaustive]
pub enum Refusal {
    /// 1: the number of samples.
    Samples,
    /// 2: a list's length.
    Length,
    /// 3: a kernel entry; the index is its place in the matrix.
    Kernel {
        /// Where the first one stands.
        index: u64,
    },
    /// 4: a label. Labels that are `bool` never lead to it.
    Label {
        /// Where the first one stands.
        index: u64,
    },
    /// 5: a ceiling.
    Ceiling {
        /// Where the first one stands; in [`crate::fit_c`] and [`crate::fit_c_retired`] 0 is `cpos` and 1 is `cneg`.
        index: u64,
    },
    /// 6: a start alpha.
    Alpha {
        /// Where the first one stands.
        index: u64,
    },
    /// 7: a linear term.
    Linear {
        /// Where the first one stands.
        index: u64,
    },
    /// 8: the threshold.
    Eps,
    /// 9: nu.
    Nu,
    /// 10: the budget.
    Budget,
    /// 11: more samples than were active would have been put aside.
    ShrunkAway,
    /// 12: a retired byte. Lists of `bool` never lead to it.
    RetiredByte,
    /// 13: shrinking is on where samples may be retired.
    RetiredShrinking,
    /// 14: the floor of the curvature.
    Floor,
    /// A number that this crate doesn't know.
    Other {
        /// The refusal's number.
        number: u64,
        /// Its index.
        index: u64,
    },
}

impl Refusal {
    pub(crate) fn new(number: u64, index: u64) -> Refusal {
        match number {
            1 => Refusal::Samples,
            2 => Refusal::Length,
            3 => Refusal::Kernel { index },
            4 => Refusal::Label { index },
            5 => Refusal::Ceiling { index },
            6 => Refusal::Alpha { index },
            7 => Refusal::Linear { index },
            8 => Refusal::Eps,
            9 => Refusal::Nu,
            10 => Refusal::Budget,
            11 => Refusal::ShrunkAway,
            12 => Refusal::RetiredByte,
            13 => Refusal::RetiredShrinking,
            14 => Refusal::Floor,
            _ => Refusal::Other { number, index },
        }
    }

    /// The number, as in `enum altuliscia_refusal`.
    pub fn number(&self) -> u64 {
        match *self {
            Refusal::Samples => 1,
            Refusal::Length => 2,
            Refusal::Kernel { .. } => 3,
            Refusal::Label { .. } => 4,
            Refusal::Ceiling { .. } => 5,
            Refusal::Alpha { .. } => 6,
            Refusal::Linear { .. } => 7,
            Refusal::Eps => 8,
            Refusal::Nu => 9,
            Refusal::Budget => 10,
            Refusal::ShrunkAway => 11,
            Refusal::RetiredByte => 12,
            Refusal::RetiredShrinking => 13,
            Refusal::Floor => 14,
            Refusal::Other { number, .. } => number,
        }
    }

    /// The first offending index for 3 to 7, else 0.
    pub fn index(&self) -> u64 {
        match *self {
            Refusal::Kernel { index }
            | Refusal::Label { index }
            | Refusal::Ceiling { index }
            | Refusal::Alpha { index }
            | Refusal::Linear { index }
            | Refusal::Other { index, .. } => index,
            _ => 0,
        }
    }

    /// What was wrong and what to do.
    #[rustfmt::skip]
    pub fn sentence(&self) -> &'static str {
        match self {
            Refusal::Samples => "The number of samples is 0 or above 512: lend 1 to 512 samples.",
            Refusal::Length => "A list has the wrong length: lend a matrix of 8*n*n bytes, n labels, n retired bytes, 8n bytes for each list of doubles, a tuning of 0, 8 or 16 bytes, of 0 or 8 where samples may be retired, at least 8n bytes for each result list and at least 72 for the answer, under the tuned functions 128.",
            Refusal::Kernel { .. } => "A kernel entry is NaN, infinite or above 2^1000 in magnitude: the index is column*n + row; scale the kernel down or mend that entry.",
            Refusal::Label { .. } => "A label is neither 0 nor 1: the index is its sample; write 1 for positive, 0 for negative.",
            Refusal::Ceiling { .. } => "A ceiling is NaN, not above 0 or above 2^1000: the index is its sample, in the C entry 0 for cpos and 1 for cneg; give a ceiling above 0 and not above 2^1000.",
            Refusal::Alpha { .. } => "A start alpha is NaN, below 0 or above its ceiling: the index is its sample; start within 0 and the ceiling.",
            Refusal::Linear { .. } => "A linear term is NaN or infinite: the index is its sample; give a finite one.",
            Refusal::Eps => "The threshold eps is NaN, infinite or has its sign bit set: give 0 or a finite number above it.",
            Refusal::Nu => "The parameter nu is NaN, not above 0 or above 1: give a number above 0 and not above 1.",
            Refusal::Budget => "The budget is 0 or above 10000000: give 1 to 10000000 passes.",
            Refusal::ShrunkAway => "Shrinking would have taken more samples out than were active: train with shrinking off, which avoids it.",
            Refusal::RetiredByte => "A retired byte is neither 0 nor 1: write 1 for a retired sample, 0 for any other.",
            Refusal::RetiredShrinking => "Shrinking is asked for where samples may be retired: train with shrinking off.",
            Refusal::Floor => "The floor of the curvature is NaN, not above 0 or above 1: give a number above 0 and not above 1; the usual one is 1e-10.",
            Refusal::Other { .. } => "This refusal is newer than this crate: look it up in altuliscia.h.",
        }
    }
}

impl fmt::Display for Refusal {
    fn fmt(&self, f: &mut fmt::Formatter<'_>) -> fmt::Result {
        let (number, index) = (self.number(), self.index());
        match number {
            3..=7 => write!(
                f,
                "refusal {} at index {}: {}",
                number,
                index,
                self.sentence()
            ),
            _ => write!(f, "refusal {}: {}", number, self.sentence()),
        }?;
        // Nobody lends a tuning by its bytes here, and so it is said in other words, too.
        match self {
            Refusal::Length => f.write_str(RETIRED_TRAVELLING),
            _ => Ok(()),
        }
    }
}

const RETIRED_TRAVELLING: &str = " Travelling takes a tuning of 16 bytes, and isn't for samples that may be retired: fit these without it.";

impl std::error::Error for Refusal {}

#[cfg(test)]
mod tests {
    use super::*;

    /// The comments of the header's refusals by their numbers.
    fn header() -> Vec<(u64, String)> {
        let text = include_str!("../../../include/altuliscia.h");
        let start = text.find("ALTULISCIA_ACCEPTED = 0,").unwrap();
        let part = &text[start..start + text[start..].find("};").unwrap()];
        part.split("/*")
            .skip(1)
            .map(|piece| {
                let (comment, rest) = piece.split_once("*/").unwrap();
                let words: Vec<&str> = comment.split_whitespace().filter(|w| *w != "*").collect();
                let digits: String = rest.chars().filter(char::is_ascii_digit).collect();
                (digits.parse().unwrap(), words.join(" "))
            })
            .collect()
    }

    #[test]
    fn sentences_are_the_headers() {
        let header = header();
        let numbers: Vec<u64> = header.iter().map(|(number, _)| *number).collect();
        assert_eq!(numbers, (1..=14).collect::<Vec<u64>>());
        for (number, sentence) in header {
            assert_eq!(Refusal::new(number, 0).sentence(), sentence);
        }
    }

    #[test]
    fn a_refusal_keeps_its_number_and_index() {
        for number in (1..=15).chain([u64::MAX]) {
            let refusal = Refusal::new(number, 5);
            let index = if (3..=7).contains(&number) || number > 14 {
                5
            } else {
                0
            };
            assert_eq!((refusal.number(), refusal.index()), (number, index));
        }
    }

    #[test]
    fn the_index_is_told_where_there_is_one() {
        let told = Refusal::Alpha { index: 3 }.to_string();
        assert!(
            told.starts_with("refusal 6 at index 3: A start alpha is NaN"),
            "{}",
            told
        );
        assert!(Refusal::Nu
            .to_string()
            .starts_with("refusal 9: The parameter nu"));
    }
}
