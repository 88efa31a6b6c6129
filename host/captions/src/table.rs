//! The tables of docs/CAPTIONS.md.
use crate::{percent, read, trained, THRESHOLDS};
use altuliscia::Refusal;
use captions::{language, Figures, Sorted};

const SIZES: [usize; 4] = [64, 128, 256, 512];
const CEILINGS: [f64; 2] = [1.0, 10.0];

/// One pair of languages, trained with shrinking off and on.
struct Pair {
    name: String,
    held: usize,
    off: Sorted,
    /// Nothing where it was refused with number 11.
    on: Option<Sorted>,
}

/// How many captions of how many.
#[derive(Default)]
struct Share(usize, usize);

impl Share {
    fn add(&mut self, right: usize, held: usize) {
        self.0 += right;
        self.1 += held;
    }

    fn told(&self) -> String {
        match self.1 {
            0 => String::new(),
            held => percent(self.0, held),
        }
    }
}

pub fn table(folder: &str) -> Result<String, String> {
    let entries = std::fs::read_dir(folder).map_err(|e| format!("{}: {}", folder, e))?;
    let mut paths: Vec<String> = entries
        .filter_map(|entry| entry.ok()?.path().to_str().map(str::to_string))
        .filter(|path| path.ends_with(".txt"))
        .collect();
    if paths.is_empty() {
        return Err(format!("{}: no figures (*.txt) in this folder", folder));
    }
    paths.sort();
    let all: Vec<Figures> = paths.iter().map(|p| read(p)).collect::<Result<_, _>>()?;
    let mut summary = vec![
        "| eps | n | C | off | refused | no rho | off, accepted | on, accepted | differ | off, differ | on, differ | linfa-svm, differ |".to_string(),
        "|---|---|---|---|---|---|---|---|---|---|---|---|".to_string(),
    ];
    let mut full = Vec::new();
    for eps in THRESHOLDS {
        for n in SIZES {
            let runs = [
                at(&all, n, CEILINGS[0], eps)?,
                at(&all, n, CEILINGS[1], eps)?,
            ];
            for (c, pairs) in CEILINGS.iter().zip(&runs) {
                summary.push(format!("| {:e} | {} | {} {}", eps, n, c, summed(pairs)));
            }
            full.extend(each(n, eps, &runs));
        }
    }
    Ok([summary, full].concat().join("\n") + "\n")
}

/// Every pair that has captions enough. What the page takes for granted is looked after: with shrinking off nothing is refused and
/// the two lists are the same, with shrinking on the only refusal is 11.
fn at(all: &[Figures], n: usize, c: f64, eps: f64) -> Result<Vec<Pair>, String> {
    let enough = all.iter().filter(|f| f.train.len() >= n);
    let one = |f: &Figures| {
        let name = format!("{}/{}", language(&f.languages.0), language(&f.languages.1));
        let off = trained(f, n, c, eps, false).map_err(|r| format!("{}: {}", name, r))?;
        if off.differ > 0 {
            return Err(format!("{}: shrinking is off, but the lists differ", name));
        }
        let on = match trained(f, n, c, eps, true) {
            Ok(sorted) => Some(sorted),
            Err(Refusal::ShrunkAway) => None,
            Err(other) => return Err(format!("{}: {}", name, other)),
        };
        Ok(Pair {
            held: f.held.len(),
            name,
            off,
            on,
        })
    };
    enough.map(one).collect()
}

/// A row of the first table from its fourth column on.
fn summed(pairs: &[Pair]) -> String {
    let (mut refused, mut none, mut differ) = (0, 0, 0);
    let mut shares: [Share; 6] = Default::default();
    for p in pairs {
        let off = p.off.home;
        shares[0].add(off, p.held);
        match &p.on {
            None => refused += 1,
            Some(on) => {
                none += usize::from(!on.rho.is_finite());
                shares[1].add(off, p.held);
                shares[2].add(on.home, p.held);
                if on.differ > 0 {
                    differ += 1;
                    shares[3].add(off, p.held);
                    shares[4].add(on.home, p.held);
                    shares[5].add(on.crate_reading, p.held);
                }
            }
        }
    }
    let told = shares.map(|s| s.told());
    format!(
        "| {} | {} of {} | {} | {} | {} | {} | {} | {} | {} |",
        told[0],
        refused,
        pairs.len(),
        none,
        told[1],
        told[2],
        differ,
        told[3],
        told[4],
        told[5]
    )
}

/// The table of every pair for one number of training captions.
fn each(n: usize, eps: f64, runs: &[Vec<Pair>; 2]) -> Vec<String> {
    let mut lines = vec![
        String::new(),
        format!("## {} training captions, eps {:e}", n, eps),
        String::new(),
        "| | to sort | C = 1: off | on | linfa-svm's | C = 10: off | on | linfa-svm's |"
            .to_string(),
        "|---|---|---|---|---|---|---|---|".to_string(),
    ];
    for (one, ten) in runs[0].iter().zip(&runs[1]) {
        let cells = [one, ten].map(cells).concat().join(" | ");
        lines.push(format!("| {} | {} | {} |", one.name, one.held, cells));
    }
    lines
}

fn cells(p: &Pair) -> Vec<String> {
    let on = match &p.on {
        Some(s) if !s.rho.is_finite() => format!("{}, rho {}", s.home, s.rho),
        Some(s) => s.home.to_string(),
        None => "refusal 11".to_string(),
    };
    let other = match &p.on {
        Some(s) if s.differ > 0 => s.crate_reading.to_string(),
        _ => String::new(),
    };
    vec![p.off.home.to_string(), on, other]
}

#[cfg(test)]
mod tests {
    use super::*;

    /// The figures that ship with the repository are the page's.
    #[test]
    fn the_page_has_the_shipped_pairs() {
        let page = include_str!("../../../docs/CAPTIONS.md");
        for text in [
            include_str!("../../../captions/cs-sk.txt"),
            include_str!("../../../captions/da-sv.txt"),
        ] {
            let figures = [Figures::read(text).unwrap()];
            assert!(page.contains(&figures[0].package));
            for eps in THRESHOLDS {
                let runs = CEILINGS.map(|c| at(&figures, 64, c, eps).unwrap());
                let table = each(64, eps, &runs);
                let part = page.split(&table[1]).nth(1).unwrap();
                let part = part.split("\n## ").next().unwrap();
                assert!(part.contains(&table[3]));
                assert!(part.contains(&table[5]), "{}", table[5]);
            }
        }
    }

    #[test]
    fn a_row_sums_up_its_pairs() {
        let sorted = |home, crate_reading, differ, rho| Sorted {
            home,
            crate_reading,
            differ,
            steps: 1,
            rho,
        };
        let pair = |on| Pair {
            name: String::new(),
            held: 10,
            off: sorted(8, 8, 0, 0.0),
            on,
        };
        let pairs = [
            pair(None),
            pair(Some(sorted(5, 5, 0, f64::NAN))),
            pair(Some(sorted(7, 2, 3, 0.5))),
            pair(Some(sorted(8, 8, 0, f64::INFINITY))),
        ];
        assert_eq!(
            summed(&pairs),
            "| 80.0 % | 1 of 4 | 2 | 80.0 % | 66.7 % | 1 | 80.0 % | 70.0 % | 20.0 % |"
        );
        assert_eq!(cells(&pairs[0]), ["8", "refusal 11", ""]);
        assert_eq!(cells(&pairs[1]), ["8", "5, rho NaN", ""]);
        assert_eq!(cells(&pairs[2]), ["8", "7", "2"]);
        assert_eq!(cells(&pairs[3]), ["8", "8, rho inf", ""]);
    }
}
