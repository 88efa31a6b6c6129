//! Trains every two of several languages, and has the library vote on the held-out captions.
use crate::Several;
use altuliscia::{Corpus, Options, Sorter, Tuned, Votes, Way};

/// The votes on each held-out caption, by trainings on all training captions with one ceiling. The error is a refusal, told.
pub fn voted(s: &Several, c: f64, options: &Options) -> Result<Vec<Votes>, String> {
    let all: Vec<usize> = (0..s.train.len()).collect();
    let labels: Vec<usize> = s.train.iter().map(|text| text.language).collect();
    let matrix = s.matrix(&all);
    let corpus = Corpus::new(&matrix, &labels);
    let sorter = Sorter::train(&corpus, Way::C(c), &Tuned::from(*options));
    let sorter = sorter.map_err(|why| why.to_string())?;
    let rows = s.held.iter().map(|text| s.values(text, s.of_each()));
    let found = sorter.sort_all(rows).map_err(|why| why.to_string())?;
    Ok(found.into_iter().map(|verdict| verdict.votes).collect())
}

#[cfg(test)]
mod tests {
    use super::*;

    /// Each held-out caption is like a training caption, the last like that of another language.
    const SMALL: &str = "package none 0
languages xx yy zz
train 3
held 3
1 0 0
2 1
3 2 0 0
1 0
2 1
3 1
";

    #[test]
    fn every_pair_votes() {
        let s = Several::read(SMALL).unwrap();
        let found = voted(&s, 1.0, &Options::default()).unwrap();
        let winners: Vec<usize> = found.iter().map(|votes| votes.winner()).collect();
        assert_eq!(winners, [1, 2, 2]);
        // What neither language of a pair has is 0, and the first's.
        assert_eq!(found[0].counts(), [2, 1, 0]);
        assert_eq!(found[1].counts(), [1, 2, 0]);
    }

    #[test]
    fn a_refusal_is_told() {
        let s = Several::read(SMALL).unwrap();
        let told = voted(&s, -1.0, &Options::default()).unwrap_err();
        assert!(told.starts_with("languages 1 and 2: refusal "), "{}", told);
    }
}
