//! How the held-out captions of several languages were sorted, from what `altuliscia sort --votes` told.
use crate::percent;
use altuliscia::Votes;
use captions::{language, Several};

/// A caption as it was sorted. Languages are numbered from 1 on.
struct Outcome {
    language: usize,
    found: usize,
    votes: Vec<u64>,
}

impl Outcome {
    /// From a line of the list: its label is the third word, what it is sorted to the fourth, and the votes begin at the eighth.
    fn read(line: &str, languages: usize) -> Option<Outcome> {
        let words: Vec<&str> = line.split_whitespace().collect();
        let votes = words.get(7..7 + languages)?.iter().enumerate();
        let votes = votes.map(|(k, word)| {
            let (label, count) = word.split_once(':')?;
            let count = count.parse().ok()?;
            (label.parse() == Ok(k + 1)).then_some(count)
        });
        let outcome = Outcome {
            language: words[2].parse().ok()?,
            found: words[3].parse().ok()?,
            votes: votes.collect::<Option<_>>()?,
        };
        // The first of those with the most votes has it.
        (outcome.shared().first() == Some(&outcome.found)).then_some(outcome)
    }

    /// The languages that share the most votes.
    fn shared(&self) -> Vec<usize> {
        let most = self.votes.iter().max();
        let places = (1..=self.votes.len()).filter(|k| Some(&self.votes[k - 1]) == most);
        places.collect()
    }

    fn right(&self) -> bool {
        self.found == self.language
    }
}

/// How all of them were sorted.
pub struct Outcomes {
    /// The codes of the languages.
    pub codes: Vec<String>,
    /// How many training captions each has.
    pub of_each: usize,
    all: Vec<Outcome>,
}

/// A caption whose votes are a tie.
#[derive(Debug, PartialEq)]
pub struct Tied {
    /// Its number among the held-out ones, from 1 on.
    pub serial: usize,
    pub language: usize,
    /// Who shares the most votes.
    pub shared: Vec<usize>,
    /// What it is sorted to.
    pub found: usize,
}

/// How the ties fell.
#[derive(Debug, PartialEq)]
pub struct Ties {
    pub all: usize,
    /// How many of them have their own language among those with the most votes.
    pub own: usize,
    /// How many of these are sorted to it, which is where it has the lowest number.
    pub right: usize,
}

/// Two languages, and how many captions of each are sorted to the other.
#[derive(Debug, PartialEq)]
pub struct Mixed {
    pub languages: (usize, usize),
    pub counts: (usize, usize),
}

impl Mixed {
    pub fn both(&self) -> usize {
        self.counts.0 + self.counts.1
    }
}

impl Outcomes {
    /// Reads a list, which must be of the held-out captions of these figures, by so many training captions of each language. The error
    /// names the line.
    pub fn read(s: &Several, of_each: usize, list: &str) -> Result<Outcomes, String> {
        let mut lines = list.lines().skip(1);
        let one = |(k, text): (usize, &captions::Text)| {
            let line = lines.next().unwrap_or_default();
            let outcome = Outcome::read(line, s.languages.len());
            let outcome = outcome.filter(|o| o.language == text.language);
            outcome.ok_or(format!(
                "line {}: not what `altuliscia sort --votes` tells of caption {}",
                k + 2,
                k + 1
            ))
        };
        let held = s.held.iter().enumerate();
        let all: Vec<Outcome> = held.map(one).collect::<Result<_, _>>()?;
        match lines.next() {
            Some(_) => Err("there are more captions than the figures have".to_string()),
            None => Outcomes::all(s, of_each, all),
        }
    }

    /// From the votes on the held-out captions, in their order, by all training captions.
    pub fn of(s: &Several, votes: &[Votes]) -> Result<Outcomes, String> {
        let held = s.held.iter().zip(votes);
        let all = held.map(|(text, votes)| Outcome {
            language: text.language,
            found: votes.winner(),
            votes: votes.counts().to_vec(),
        });
        Outcomes::all(s, s.of_each(), all.collect())
    }

    fn all(s: &Several, of_each: usize, all: Vec<Outcome>) -> Result<Outcomes, String> {
        if all.is_empty() {
            return Err("there is no held-out caption to sort".to_string());
        }
        Ok(Outcomes {
            codes: s.languages.clone(),
            of_each,
            all,
        })
    }

    pub fn held(&self) -> usize {
        self.all.len()
    }

    /// How many captions each language has, since each has as many.
    pub fn held_of_each(&self) -> usize {
        self.all.len() / self.codes.len()
    }

    pub fn right(&self) -> usize {
        self.all.iter().filter(|o| o.right()).count()
    }

    /// The labels in the order of the captions.
    pub fn labels(&self) -> impl Iterator<Item = usize> + '_ {
        self.all.iter().map(|o| o.found)
    }

    /// A row for each language with how many of its captions are sorted to each.
    pub fn grid(&self) -> Vec<Vec<usize>> {
        let mut grid = vec![vec![0; self.codes.len()]; self.codes.len()];
        for o in &self.all {
            grid[o.language - 1][o.found - 1] += 1;
        }
        grid
    }

    pub fn ties(&self) -> Ties {
        let ties = self.tied();
        let own = ties.iter().filter(|t| t.shared.contains(&t.language));
        Ties {
            all: ties.len(),
            own: own.clone().count(),
            right: own.filter(|t| t.found == t.language).count(),
        }
    }

    /// The captions whose votes are a tie.
    pub fn tied(&self) -> Vec<Tied> {
        let all = self.all.iter().enumerate();
        let told = all.map(|(k, o)| Tied {
            serial: k + 1,
            language: o.language,
            shared: o.shared(),
            found: o.found,
        });
        told.filter(|t| t.shared.len() > 1).collect()
    }

    /// The pairs of languages that are taken for each other, those first that are most often.
    pub fn mixed(&self) -> Vec<Mixed> {
        let (grid, all) = (self.grid(), self.codes.len());
        let pairs = altuliscia::pairs(all).map(|(a, b)| Mixed {
            languages: (a, b),
            counts: (grid[a - 1][b - 1], grid[b - 1][a - 1]),
        });
        let mut pairs: Vec<Mixed> = pairs.filter(|pair| pair.both() > 0).collect();
        pairs.sort_by_key(|pair| std::cmp::Reverse(pair.both()));
        pairs
    }

    /// The name of a language by its number.
    pub fn name(&self, number: usize) -> &str {
        language(&self.codes[number - 1])
    }

    /// For a reader: how many, the whole grid, ties, and who is most often taken for whom.
    pub fn told(&self) -> String {
        let all = self.codes.len();
        let mut lines = vec![
            format!(
                "Which of {} languages? {} captions of each to train on, {} trainings of two languages, {} others to sort.",
                all,
                self.of_each,
                altuliscia::pairs(all).count(),
                self.held()
            ),
            String::new(),
            format!("{:<10}{}   rightly", "sorted to", columns(&self.codes)),
        ];
        for (k, row) in self.grid().iter().enumerate() {
            let cells: Vec<String> = row.iter().map(|count| cell(*count, ".")).collect();
            lines.push(format!(
                "{:<10}{}  {:>8}",
                self.name(k + 1),
                columns(&cells),
                percent(row[k], self.held_of_each())
            ));
        }
        let ties = self.ties();
        lines.push(String::new());
        lines.push(format!(
            "{} are sorted rightly ({}). {} are ties: in {} the right language shares the most votes, in {} of these it is the first and wins.",
            self.right(),
            percent(self.right(), self.held()),
            ties.all,
            ties.own,
            ties.right
        ));
        let most: Vec<String> = self.mixed().iter().take(3).map(|m| self.both(m)).collect();
        if !most.is_empty() {
            lines.push(format!(
                "Most often taken for each other: {}.",
                most.join(", ")
            ));
        }
        lines.join("\n") + "\n"
    }

    fn both(&self, m: &Mixed) -> String {
        let (a, b) = m.languages;
        format!("{} and {} ({})", self.name(a), self.name(b), m.both())
    }
}

/// A count, and a sign where it is 0.
pub fn cell(count: usize, none: &str) -> String {
    match count {
        0 => none.to_string(),
        count => count.to_string(),
    }
}

fn columns(words: &[String]) -> String {
    words.iter().map(|word| format!("{:>4}", word)).collect()
}

#[cfg(test)]
pub mod tests {
    use super::*;

    const FIGURES: &str = "package p 1
languages cs xx <b
train 3
held 6
1 0
2 0
3 0
1 0
2 0
3 0
1 0
2 0
3 0
";

    const LIST: &str = "  line serial  label  sorted  votes  runner-up  votes  all votes
     1      1      1       1      2          2      1  1:2 2:1 3:0
     2      2      2       3      2          2      1  1:0 2:1 3:2
     3      3      3       3      2          1      1  1:1 2:0 3:2
     4      4      1       1      1          2      1  1:1 2:1 3:1  tie of 1 2 3
     5      5      2       1      1          2      1  1:1 2:1 3:1  tie of 1 2 3
     6      6      3       2      2          3      1  1:0 2:2 3:1
";

    pub fn small() -> Outcomes {
        Outcomes::read(&Several::read(FIGURES).unwrap(), 1, LIST).unwrap()
    }

    #[test]
    fn what_was_sorted_is_counted() {
        let found = small();
        assert_eq!(
            (found.held(), found.held_of_each(), found.right()),
            (6, 2, 3)
        );
        assert_eq!(found.grid(), [[2, 0, 0], [1, 0, 1], [0, 1, 1]]);
        let ties = Ties {
            all: 2,
            own: 2,
            right: 1,
        };
        assert_eq!(found.ties(), ties);
        let tied = [(4, 1), (5, 2)].map(|(serial, language)| Tied {
            serial,
            language,
            shared: vec![1, 2, 3],
            found: 1,
        });
        assert_eq!(found.tied(), tied);
        let mixed = found.mixed();
        assert_eq!((mixed[0].languages, mixed[0].counts), ((2, 3), (1, 1)));
        assert_eq!((mixed[1].languages, mixed[1].counts), ((1, 2), (0, 1)));
        assert_eq!(mixed.len(), 2);
        assert_eq!(found.labels().collect::<Vec<_>>(), [1, 3, 3, 1, 1, 2]);
    }

    #[test]
    fn what_is_told() {
        assert_eq!(
            small().told(),
            "Which of 3 languages? 1 captions of each to train on, 3 trainings of two languages, 6 others to sort.

sorted to   cs  xx  <b   rightly
Czech        2   .   .   100.0 %
xx           1   .   1     0.0 %
<b           .   1   1    50.0 %

3 are sorted rightly (50.0 %). 2 are ties: in 2 the right language shares the most votes, in 1 of these it is the first and wins.
Most often taken for each other: xx and <b (2), Czech and xx (1).
"
        );
    }

    #[test]
    fn a_list_of_something_else_is_told() {
        let figures = Several::read(FIGURES).unwrap();
        let told = |list: &str| Outcomes::read(&figures, 1, list).err().unwrap();
        let third = "line 3: not what `altuliscia sort --votes` tells of caption 2";
        for (from, to) in [
            ("2      2      2       3", "2      2      3       3"),
            ("2      2      2       3", "2      2      2       2"),
            ("1:0 2:1 3:2", "1:0 2:1"),
            ("1:0 2:1 3:2", "1:0 3:1 2:2"),
            ("1:0 2:1 3:2", "1:0 2:x 3:2"),
        ] {
            assert_eq!(LIST.matches(from).count(), 1, "{}", from);
            assert_eq!(told(&LIST.replace(from, to)), third);
        }
        let last = LIST.rfind("     6").unwrap();
        assert!(told(&LIST[..last]).starts_with("line 7: not what"));
        let more = format!("{}{}", LIST, "     7\n");
        assert_eq!(told(&more), "there are more captions than the figures have");
        let none = FIGURES.split("1 0\n").next().unwrap();
        let none = none
            .replace("train 3", "train 0")
            .replace("held 6", "held 0");
        let none = Several::read(&none).unwrap();
        let head = LIST.lines().next().unwrap();
        let told = Outcomes::read(&none, 1, head).err().unwrap();
        assert_eq!(told, "there is no held-out caption to sort");
    }
}
