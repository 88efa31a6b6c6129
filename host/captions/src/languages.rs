//! The tables of docs/LANGUAGES.md.
use crate::outcomes::{cell, Outcomes};
use crate::{percent, several, text};
use captions::{Model, Several};

/// How many training captions of each language.
const SIZES: [usize; 6] = [8, 16, 32, 64, 128, 256];
const CEILINGS: [usize; 2] = [1, 10];
/// From so many captions on two languages are listed that are taken for each other.
const OFTEN: usize = 3;

/// One model, and how it sorts.
struct Run {
    ceiling: usize,
    found: Outcomes,
    /// What no decision of a pair is nearer to 0 than.
    nearest: f64,
    /// How many captions svm-predict sorts otherwise by the same model.
    predicted: usize,
    /// How many it sorts otherwise by the model that svm-train makes of the same text.
    trained: usize,
}

impl Run {
    /// From the files that captions/languages made.
    fn read(s: &Several, folder: &str, of_each: usize, ceiling: usize) -> Result<Run, String> {
        let name = |end: &str| format!("{}/{}-{}.{}", folder, of_each, ceiling, end);
        let told = |end: &str| {
            let name = name(end);
            move |error: String| format!("{}: {}", name, error)
        };
        let list = text(&name("sorted"))?;
        let found = Outcomes::read(s, of_each, &list).map_err(told("sorted"))?;
        let model = Model::read(&text(&name("model"))?);
        let model = model.ok_or_else(|| told("model")("not a model".to_string()))?;
        let differ = |end: &str| {
            let labels = text(&name(end))?;
            otherwise(&found, &labels).map_err(told(end))
        };
        Ok(Run {
            ceiling,
            nearest: nearest(s, of_each, &model),
            predicted: differ("predicted")?,
            trained: differ("libsvm")?,
            found,
        })
    }

    fn row(&self) -> String {
        let (right, ties) = (self.found.right(), self.found.ties());
        let cells = [
            self.found.of_each.to_string(),
            self.ceiling.to_string(),
            format!("{} ({})", right, percent(right, self.found.held())),
            ties.all.to_string(),
            ties.own.to_string(),
            ties.right.to_string(),
            format!("{:.1e}", self.nearest),
            self.predicted.to_string(),
            self.trained.to_string(),
        ];
        format!("| {} |", cells.join(" | "))
    }
}

fn nearest(s: &Several, of_each: usize, model: &Model) -> f64 {
    let held = s.held.iter();
    let decided = held.flat_map(|text| model.decisions(&s.values(text, of_each)));
    decided.map(f64::abs).fold(f64::INFINITY, f64::min)
}

/// How many labels, a line each, are others than those that were found.
fn otherwise(found: &Outcomes, labels: &str) -> Result<usize, String> {
    let labels: Option<Vec<usize>> = labels.lines().map(|l| l.parse().ok()).collect();
    let labels = labels.filter(|list| list.len() == found.held());
    let labels = labels.ok_or("not a label for each caption")?;
    Ok(found.labels().zip(&labels).filter(|(a, b)| a != *b).count())
}

pub fn tables(folder: &str) -> Result<String, String> {
    let s = several(&format!("{}/twelve.txt", folder))?;
    let mut runs = Vec::new();
    for of_each in SIZES {
        for ceiling in CEILINGS {
            runs.push(Run::read(&s, folder, of_each, ceiling)?);
        }
    }
    let mut lines: Vec<String> = HEAD.iter().map(|line| line.to_string()).collect();
    lines.extend(runs.iter().map(Run::row));
    lines.push(String::new());
    lines.push(compared(&runs));
    lines.extend(runs.last().map(of_one).unwrap_or_default());
    Ok(lines.join("\n") + "\n")
}

const HEAD: [&str; 4] = [
    "## All of them",
    "",
    "| of each | C | sorted rightly | ties | own | won | nearest | svm-predict | svm-train |",
    "|---|---|---|---|---|---|---|---|---|",
];

/// What was compared with LIBSVM in all.
fn compared(runs: &[Run]) -> String {
    let sum = |count: &dyn Fn(&Run) -> usize| runs.iter().map(count).sum::<usize>();
    format!(
        "In all {} times a caption was sorted, {} times with a tie. `svm-predict` sorts {} of them otherwise by the same model, and {} by the model of `svm-train`.",
        sum(&|run| run.found.held()),
        sum(&|run| run.found.ties().all),
        sum(&|run| run.predicted),
        sum(&|run| run.trained)
    )
}

/// One model at length.
fn of_one(run: &Run) -> Vec<String> {
    let found = &run.found;
    let mut lines = vec![
        String::new(),
        format!("## {} of each language, C {}", found.of_each, run.ceiling),
        String::new(),
        "![A grid of squares, a row for each language and a column for each that its captions are sorted to: nearly all lie on the diagonal.](languages.svg)".to_string(),
        String::new(),
        format!(
            "A row has the {} held-out captions of one language, a column says which they were sorted to.",
            found.held_of_each()
        ),
        String::new(),
        format!("| | {} | rightly |", found.codes.join(" | ")),
        format!("|---|{}", "---|".repeat(found.codes.len() + 1)),
    ];
    for (k, row) in found.grid().iter().enumerate() {
        let cells: Vec<String> = row.iter().map(|count| cell(*count, "")).collect();
        let right = percent(row[k], found.held_of_each());
        let cells = cells.join(" | ");
        lines.push(format!("| {} | {} | {} |", found.name(k + 1), cells, right));
    }
    lines.extend(mixed(found));
    lines.extend(tied(found));
    lines
}

/// Who is taken for whom.
fn mixed(found: &Outcomes) -> Vec<String> {
    let mut lines = vec![
        String::new(),
        format!(
            "Taken for each other, {} captions or more of both together:",
            OFTEN
        ),
        String::new(),
        "| | first for second | second for first |".to_string(),
        "|---|---|---|".to_string(),
    ];
    for m in found.mixed().iter().filter(|m| m.both() >= OFTEN) {
        let (a, b) = m.languages;
        let names = format!("{}, {}", found.name(a), found.name(b));
        lines.push(format!("| {} | {} | {} |", names, m.counts.0, m.counts.1));
    }
    lines
}

/// Each tie.
fn tied(found: &Outcomes) -> Vec<String> {
    let mut lines = vec![
        String::new(),
        "The ties, by the caption's line among the held-out ones:".to_string(),
        String::new(),
        "| line | language | share the most votes | sorted to |".to_string(),
        "|---|---|---|---|".to_string(),
    ];
    for t in found.tied() {
        let shared: Vec<&str> = t.shared.iter().map(|k| found.name(*k)).collect();
        lines.push(format!(
            "| {} | {} | {} | {} |",
            t.serial,
            found.name(t.language),
            shared.join(", "),
            found.name(t.found)
        ));
    }
    lines
}

#[cfg(test)]
mod tests {
    use super::*;
    use crate::outcomes::tests::small;

    fn run() -> Run {
        Run {
            ceiling: 10,
            found: small(),
            nearest: 0.00123,
            predicted: 1,
            trained: 2,
        }
    }

    #[test]
    fn a_row_of_each_model() {
        let row = "| 1 | 10 | 3 (50.0 %) | 2 | 2 | 1 | 1.2e-3 | 1 | 2 |";
        assert_eq!(run().row(), row);
        assert_eq!(row.matches('|').count(), HEAD[2].matches('|').count());
        assert_eq!(
            compared(&[run(), run()]),
            "In all 12 times a caption was sorted, 4 times with a tie. `svm-predict` sorts 2 of them otherwise by the same model, and 4 by the model of `svm-train`."
        );
    }

    #[test]
    fn one_model_at_length() {
        let lines = of_one(&run());
        for line in [
            "## 1 of each language, C 10",
            "| | cs | xx | <b | rightly |",
            "|---|---|---|---|---|",
            "| xx | 1 |  | 1 | 0.0 % |",
            "| 4 | Czech | Czech, xx, <b | Czech |",
        ] {
            assert!(lines.contains(&line.to_string()), "{}", line);
        }
        // Nobody is taken for another as often as that.
        assert!(!lines.iter().any(|line| line.starts_with("| xx, <b |")));
    }

    #[test]
    fn labels_are_compared() {
        let found = small();
        assert_eq!(otherwise(&found, "1\n3\n3\n1\n1\n2\n"), Ok(0));
        assert_eq!(otherwise(&found, "1\n2\n3\n1\n2\n2\n"), Ok(2));
        for wrong in [
            "",
            "1\n3\n3\n1\n1\n",
            "1\n3\n3\n1\n1\n2\n2\n",
            "1\n3\n3\n1\n1\nx\n",
        ] {
            assert!(otherwise(&found, wrong).is_err());
        }
    }

    #[test]
    fn nothing_is_nearer() {
        let s = "package p 1\nlanguages x y z\ntrain 3\nheld 3\n1 0\n2 1\n3 2\n1 0\n2 1\n3 2\n";
        let s = Several::read(s).unwrap();
        let model = "rho 0.25 -2 0\nnr_sv 1 1 1\nSV\n1 1 0:1\n-1 1 0:2\n-1 -1.125 0:3\n";
        let model = Model::read(model).unwrap();
        // On the first caption 0.75, 3 and 0; on the third -0.25, 1 and -1.125.
        assert_eq!(nearest(&s, 1, &model), 0.0);
        let model = "rho 0.25 -2 0.5\nnr_sv 1 1 1\nSV\n1 1 0:1\n-1 1 0:2\n-1 -1.125 0:3\n";
        assert_eq!(nearest(&s, 1, &Model::read(model).unwrap()), 0.25);
    }

    /// The page has a row of what ships, and it is what is told of it.
    #[test]
    fn the_page_has_the_shipped_captions() {
        let page = include_str!("../../../docs/LANGUAGES.md");
        let shipped = Several::read(include_str!("../../../captions/twelve.txt")).unwrap();
        assert!(page.contains(&shipped.package));
        let start = format!("| {} | 10 | ", shipped.of_each());
        let part = page.split(HEAD[2]).nth(1).unwrap();
        let row = part.lines().find_map(|l| l.strip_prefix(&start)).unwrap();
        let cells: Vec<&str> = row.split(" | ").collect();
        let (count, share) = cells[0].split_once(' ').unwrap();
        let told = format!(
            "{} are sorted rightly {}. {} are ties: in {} the right language shares the most votes, in {} of",
            count, share, cells[1], cells[2], cells[3]
        );
        assert!(include_str!("../../../captions/twelve.expected").contains(&told));
    }
}
