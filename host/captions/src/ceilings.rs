//! Trainings with another ceiling for each language, in both modes beside each other: docs/CEILINGS.md.
#[path = "../../altuliscia/src/functions.rs"]
mod functions;

use captions::{decision, language, Figures};

/// Ceilings of the first and of the second language.
const COSTS: [(f64, f64); 6] = [
    (10.0, 1.0),
    (1.0, 10.0),
    (10.0, 2.0),
    (2.0, 10.0),
    (10.0, 5.0),
    (5.0, 10.0),
];

const BUDGET: u64 = 10_000_000;

/// Shrinking and travelling, in the order of the columns.
const WAYS: [(bool, bool); 3] = [(false, false), (true, false), (true, true)];

const HEAD: &str = "# Another ceiling for each language

A training on real captions with a higher ceiling for one of the two languages: with shrinking off, then with shrinking on in the crate's
mode, where a caption takes the ceiling of the place it lands in, and in the travelling mode, where it keeps its own. This page is what
`captions ceilings` prints of the captions that ship (captions/README.md); `./test` compares it.

Costs: the ceilings of the first and of the second language. Then, for each of the three ways, the steps of the run and how many held-out captions
are sorted rightly by each caption's own weight. Other weights: of how many captions the two modes answer another weight. 11: refused with that
number.
";

const TABLE: &str = "| eps | costs | off: steps | sorted | crate's: steps | sorted | travelling: steps | sorted | other weights |
|---|---|---|---|---|---|---|---|---|";

/// What an accepted training answers.
struct Run {
    steps: u64,
    home: Vec<f64>,
    /// How many held-out captions are sorted rightly.
    right: usize,
}

/// How the trainings with shrinking on came out.
#[derive(Default)]
struct Count {
    trainings: usize,
    refused: [usize; 2],
    /// Accepted in both modes, and some weight is another.
    differ: usize,
    /// Of those, sorted better in travelling, and worse.
    better: usize,
    worse: usize,
    /// Of those, with a count nearer to that of shrinking off in travelling, and farther.
    nearer: usize,
    farther: usize,
}

/// The page on these figures. The error is a pair without a caption to sort, or a refusal other than 11.
pub fn page(all: &[Figures]) -> Result<String, String> {
    let mut count = Count::default();
    let mut tables = Vec::new();
    for f in all {
        tables.push(table(f, &mut count)?);
    }
    Ok(format!("{}\n{}\n{}", HEAD, count.told(), tables.join("\n")))
}

fn table(f: &Figures, count: &mut Count) -> Result<String, String> {
    if f.held.is_empty() {
        return Err("there is no held-out caption to sort".to_string());
    }
    let (first, second) = (language(&f.languages.0), language(&f.languages.1));
    let mut lines = vec![format!(
        "## {} and {}: {} captions to train on, {} to sort\n\n{}",
        first,
        second,
        f.train.len(),
        f.held.len(),
        TABLE
    )];
    for eps in crate::THRESHOLDS {
        for costs in COSTS {
            let runs = WAYS.map(|way| trained(f, costs, eps, way));
            lines.push(row(costs, eps, &runs)?);
            count.add(&runs);
        }
    }
    Ok(lines.join("\n") + "\n")
}

fn row(costs: (f64, f64), eps: f64, runs: &[Result<Run, u64>; 3]) -> Result<String, String> {
    let mut cells = vec![format!("{:e}", eps), format!("{}:{}", costs.0, costs.1)];
    for run in runs {
        match run {
            Ok(run) => cells.extend([run.steps.to_string(), run.right.to_string()]),
            Err(11) => cells.extend(["11".to_string(), String::new()]),
            Err(number) => return Err(format!("refused with {}", number)),
        }
    }
    cells.push(other_weights(runs).map_or(String::new(), |k| k.to_string()));
    Ok(format!("| {} |", cells.join(" | ")))
}

/// Of how many captions the two modes answer another weight, where both are accepted.
fn other_weights(runs: &[Result<Run, u64>; 3]) -> Option<usize> {
    match runs {
        [_, Ok(theirs), Ok(own)] => {
            let both = theirs.home.iter().zip(&own.home);
            Some(both.filter(|(a, b)| a != b).count())
        }
        _ => None,
    }
}

impl Count {
    fn add(&mut self, runs: &[Result<Run, u64>; 3]) {
        self.trainings += 1;
        for (mode, run) in runs[1..].iter().enumerate() {
            self.refused[mode] += usize::from(run.is_err());
        }
        if let ([Ok(off), Ok(theirs), Ok(own)], Some(1..)) = (runs, other_weights(runs)) {
            let [from_theirs, from_own] =
                [theirs, own].map(|run| (run.right as i64 - off.right as i64).abs());
            self.differ += 1;
            self.better += usize::from(own.right > theirs.right);
            self.worse += usize::from(own.right < theirs.right);
            self.nearer += usize::from(from_own < from_theirs);
            self.farther += usize::from(from_own > from_theirs);
        }
    }

    fn told(&self) -> String {
        let as_many = self.differ - self.better - self.worse;
        format!(
            "Of {} trainings with shrinking on {} are refused in the crate's mode and {} in travelling. In {} of those accepted in both some weight is\n\
             another. Of these {} sort more captions rightly in travelling, {} fewer and {} as many; {} come nearer to what shrinking off sorts rightly,\n\
             {} are farther from it. With shrinking off the mode has no say.\n",
            self.trainings,
            self.refused[0],
            self.refused[1],
            self.differ,
            self.better,
            self.worse,
            as_many,
            self.nearer,
            self.farther
        )
    }
}

fn bytes(floats: &[f64]) -> Vec<u8> {
    let words = floats.iter().map(|x| x.to_bits().to_le_bytes());
    words.flat_map(|word| word.to_vec()).collect()
}

fn word(bytes: &[u8], k: usize) -> u64 {
    let mut word = [0; 8];
    word.copy_from_slice(&bytes[8 * k..8 * k + 8]);
    u64::from_le_bytes(word)
}

/// One training, or the number of its refusal.
fn trained(f: &Figures, costs: (f64, f64), eps: f64, way: (bool, bool)) -> Result<Run, u64> {
    let n = f.train.len();
    let matrix = bytes(&f.matrix(n));
    let labels: Vec<u8> = f.labels(n).into_iter().map(u8::from).collect();
    let mut tuning = bytes(&[1e-10]);
    tuning.extend(u64::from(way.1).to_le_bytes());
    let (mut readings, mut answer) = ([vec![0; 8 * n], vec![0; 8 * n]], [0; 128]);
    let [crate_reading, home] = &mut readings;
    // each pointer has its length beside it
    #[rustfmt::skip]
    let number = unsafe {
        functions::altuliscia_c_tuned(n, matrix.as_ptr(), matrix.len(), labels.as_ptr(), labels.len(),
            costs.0.to_bits(), costs.1.to_bits(), eps.to_bits(), u8::from(way.0), BUDGET, tuning.as_ptr(), tuning.len(),
            crate_reading.as_mut_ptr(), crate_reading.len(), home.as_mut_ptr(), home.len(), answer.as_mut_ptr(), answer.len())
    };
    if number != 0 {
        return Err(number);
    }
    let home: Vec<f64> = (0..n).map(|k| f64::from_bits(word(home, k))).collect();
    let rho = f64::from_bits(word(&answer, 2));
    let first = |caption| decision(&home, &f.values(caption, n), rho) >= 0.0;
    let right = f.held.iter().filter(|c| first(c) == c.first).count();
    Ok(Run {
        steps: word(&answer, 6),
        home,
        right,
    })
}
