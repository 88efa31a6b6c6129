//! What is trained: a matrix with labels, drawn from a fixed seed or read from a file, and a task.
use oracle::random::Random;
use std::collections::BTreeMap;
use std::rc::Rc;

/// A square matrix, column after column, and a label for each sample.
pub struct Given {
    pub name: String,
    pub n: usize,
    pub matrix: Rc<[f64]>,
    /// 1 positive, 0 negative.
    pub labels: Vec<u8>,
}

impl Given {
    /// n in eight bytes, the matrix in 8·n·n (as docs/BYTES.md has it), the labels in n.
    pub fn bytes(&self) -> Vec<u8> {
        let mut bytes = (self.n as u64).to_le_bytes().to_vec();
        bytes.extend(self.matrix.iter().flat_map(|x| x.to_le_bytes()));
        bytes.extend(&self.labels);
        bytes
    }

    pub fn read(name: &str, bytes: &[u8]) -> Option<Given> {
        let n = u64::from_le_bytes(bytes.get(..8)?.try_into().ok()?) as usize;
        if n == 0 || n > 512 || bytes.len() != 8 + 8 * n * n + n {
            return None;
        }
        let (matrix, labels) = bytes[8..].split_at(8 * n * n);
        let words = matrix.chunks_exact(8).map(|b| b.try_into().unwrap());
        Some(Given {
            name: name.to_string(),
            n,
            matrix: words.map(f64::from_le_bytes).collect(),
            labels: labels.to_vec(),
        })
    }
}

/// As many positive as negative samples, in no order; the first is positive.
fn draw_labels(g: &mut Random, n: usize) -> Vec<u8> {
    let mut labels: Vec<u8> = (0..n).map(|k| u8::from(k % 2 == 0)).collect();
    for k in (2..n).rev() {
        labels.swap(k, 1 + g.place(k));
    }
    labels
}

/// A language of 24 letters: which letters like to follow each one.
struct Language {
    after: Vec<[usize; 4]>,
}

const LETTERS: usize = 24;

impl Language {
    fn draw(g: &mut Random) -> Language {
        let after = (0..LETTERS).map(|_| [0; 4].map(|_| g.place(LETTERS)));
        Language {
            after: after.collect(),
        }
    }
}

/// A caption of 5 to 24 letters: half the time a letter follows as both languages have it, else as its own does or by chance.
fn draw_caption(g: &mut Random, both: &Language, own: &Language) -> Vec<u8> {
    let mut letter = g.place(LETTERS);
    let mut caption = vec![letter as u8];
    for _ in 0..g.from_to(4, 23) {
        letter = match g.below(8) {
            0..=3 => g.pick(&both.after[letter]),
            4..=5 => g.pick(&own.after[letter]),
            _ => g.place(LETTERS),
        };
        caption.push(letter as u8);
    }
    caption
}

/// How often each piece of one to three letters stands in the caption.
fn pieces(caption: &[u8]) -> BTreeMap<Vec<u8>, f64> {
    let mut counts = BTreeMap::new();
    for len in 1..=3 {
        for piece in caption.windows(len) {
            *counts.entry(piece.to_vec()).or_insert(0.0) += 1.0;
        }
    }
    counts
}

fn dot(a: &BTreeMap<Vec<u8>, f64>, b: &BTreeMap<Vec<u8>, f64>) -> f64 {
    a.iter().map(|(p, x)| x * b.get(p).unwrap_or(&0.0)).sum()
}

/// Captions of two drawn languages, compared by the pieces of one to three letters that they share.
pub fn captions(n: usize) -> Given {
    let g = &mut Random::new(0xca9_7105 + n as u64);
    let languages: Vec<Language> = (0..3).map(|_| Language::draw(g)).collect();
    let labels = draw_labels(g, n);
    let own = |y: &u8| &languages[1 + usize::from(*y)];
    let all = labels
        .iter()
        .map(|y| draw_caption(g, &languages[0], own(y)));
    let all: Vec<_> = all.map(|caption| pieces(&caption)).collect();
    let norms: Vec<f64> = all.iter().map(|a| dot(a, a)).collect();
    let entry = |c: usize, r: usize| dot(&all[c], &all[r]) / (norms[c] * norms[r]).sqrt();
    filled("captions", labels, entry)
}

/// Points of eight numbers, the positive ones a little aside; (1 + d²/16)^-16 of their distance d, which is near exp(-d²) and is
/// reached by exactly rounded operations alone.
pub fn points(n: usize) -> Given {
    let g = &mut Random::new(0x9017_7500 + n as u64);
    let labels = draw_labels(g, n);
    let point = |y: &u8| {
        let aside = if *y == 1 { 0.35 } else { 0.0 };
        [0.0; 8].map(|_: f64| 1.2 * g.signed() + aside)
    };
    let all: Vec<[f64; 8]> = labels.iter().map(point).collect();
    let entry = |c: usize, r: usize| {
        let apart = all[c].iter().zip(&all[r]).map(|(a, b)| (a - b) * (a - b));
        let mut power = 1.0 + apart.sum::<f64>() / 16.0;
        for _ in 0..4 {
            power *= power;
        }
        1.0 / power
    };
    filled("points", labels, entry)
}

fn filled(name: &str, labels: Vec<u8>, entry: impl Fn(usize, usize) -> f64) -> Given {
    let n = labels.len();
    Given {
        name: name.to_string(),
        n,
        matrix: (0..n * n).map(|k| entry(k / n, k % n)).collect(),
        labels,
    }
}

#[derive(Clone, Copy, PartialEq)]
pub enum Task {
    C(f64),
    Nu(f64),
    OneClass(f64),
}

impl Task {
    pub const ALL: [Task; 4] = [
        Task::C(1.0),
        Task::C(10.0),
        Task::Nu(0.3),
        Task::OneClass(0.2),
    ];

    /// From c:10, nu:0.3 or one-class:0.2.
    pub fn read(word: &str) -> Option<Task> {
        let (kind, number) = word.split_once(':')?;
        let number = number.parse().ok()?;
        match kind {
            "c" => Some(Task::C(number)),
            "nu" => Some(Task::Nu(number)),
            "one-class" => Some(Task::OneClass(number)),
            _ => None,
        }
    }

    pub fn name(self) -> String {
        match self {
            Task::C(c) => format!("C = {c}"),
            Task::Nu(nu) => format!("nu = {nu}"),
            Task::OneClass(nu) => format!("one-class {nu}"),
        }
    }

    /// LIBSVM's number of the task, C and nu.
    pub fn libsvm(self) -> (i32, f64, f64) {
        match self {
            Task::C(c) => (0, c, 0.5),
            Task::Nu(nu) => (1, 1.0, nu),
            Task::OneClass(nu) => (2, 1.0, nu),
        }
    }
}
