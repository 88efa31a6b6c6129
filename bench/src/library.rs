//! The proved library through its C functions: the whole call, with the refusals that come first.
use crate::given::{Given, Task};
use crate::rust::problem;
use crate::{Fit, EPS};
use oracle::general::{finished, general};
use oracle::Problem;

#[rustfmt::skip]
extern "C" {
    fn altuliscia_c(n: usize, matrix: *const u8, matrix_len: usize, labels: *const u8, labels_len: usize,
        cpos: u64, cneg: u64, eps: u64, shrinking: u8, budget: u64, crate_reading: *mut u8, crate_reading_len: usize,
        home: *mut u8, home_len: usize, answer: *mut u8, answer_len: usize) -> u64;
    fn altuliscia_nu(n: usize, matrix: *const u8, matrix_len: usize, labels: *const u8, labels_len: usize,
        nu: u64, eps: u64, shrinking: u8, budget: u64, crate_reading: *mut u8, crate_reading_len: usize,
        home: *mut u8, home_len: usize, answer: *mut u8, answer_len: usize) -> u64;
    fn altuliscia_one_class(n: usize, matrix: *const u8, matrix_len: usize,
        nu: u64, eps: u64, shrinking: u8, budget: u64, crate_reading: *mut u8, crate_reading_len: usize,
        home: *mut u8, home_len: usize, answer: *mut u8, answer_len: usize) -> u64;
    fn altuliscia_general(n: usize, matrix: *const u8, matrix_len: usize, labels: *const u8, labels_len: usize,
        ceilings: *const u8, ceilings_len: usize, alphas: *const u8, alphas_len: usize, linear: *const u8, linear_len: usize,
        nu_rule: u8, eps: u64, shrinking: u8, budget: u64, crate_reading: *mut u8, crate_reading_len: usize,
        home: *mut u8, home_len: usize, answer: *mut u8, answer_len: usize) -> u64;
}

/// What the Rust allows itself, too.
pub const BUDGET: u64 = 10_000_000;

/// What a call writes.
struct Written {
    crate_reading: Vec<f64>,
    home: Vec<f64>,
    answer: [u64; 9],
    refusal: u64,
}

impl Written {
    fn new(n: usize) -> Written {
        Written {
            crate_reading: vec![0.0; n],
            home: vec![0.0; n],
            answer: [0; 9],
            refusal: 0,
        }
    }

    /// Both readings and the answer.
    fn words(&self) -> Vec<u64> {
        let readings = self.crate_reading.iter().chain(&self.home);
        readings.map(|x| x.to_bits()).chain(self.answer).collect()
    }
}

/// The answer's fields from such words, for n samples.
fn fit_of(n: usize, words: &[u64]) -> Fit {
    let floats: Vec<f64> = words.iter().map(|x| f64::from_bits(*x)).collect();
    Fit {
        rho: floats[2 * n + 2],
        obj: floats[2 * n + 5],
        iterations: words[2 * n + 6],
        crate_reading: floats[..n].to_vec(),
        home: Some(floats[n..2 * n].to_vec()),
    }
}

pub struct Library<'a> {
    given: &'a Given,
    task: Task,
    shrinking: u8,
    pub budget: u64,
    written: Written,
}

impl<'a> Library<'a> {
    pub fn new(given: &'a Given, task: Task, shrinking: bool) -> Library<'a> {
        Library {
            given,
            task,
            shrinking: u8::from(shrinking),
            budget: BUDGET,
            written: Written::new(given.n),
        }
    }

    /// The number of the refusal, or the answer's fields.
    pub fn fitted(&self) -> Result<Fit, u64> {
        match self.written.refusal {
            0 => Ok(fit_of(self.given.n, &self.written.words())),
            number => Err(number),
        }
    }

    #[rustfmt::skip]
    pub fn fit(&mut self) {
        let Given { n, matrix, labels, .. } = self.given;
        let len = 8 * n;
        let (m, y) = (matrix.as_ptr().cast(), labels.as_ptr());
        let w = &mut self.written;
        let (crate_reading, home) = (w.crate_reading.as_mut_ptr().cast(), w.home.as_mut_ptr().cast());
        let answer = w.answer.as_mut_ptr().cast();
        let (eps, s, budget) = (EPS.to_bits(), self.shrinking, self.budget);
        // each pointer has the length that stands beside it, and what is written overlaps nothing
        w.refusal = unsafe {
            match self.task {
                Task::C(c) => altuliscia_c(*n, m, len * n, y, *n, c.to_bits(), c.to_bits(), eps, s, budget,
                    crate_reading, len, home, len, answer, 72),
                Task::Nu(nu) => altuliscia_nu(*n, m, len * n, y, *n, nu.to_bits(), eps, s, budget,
                    crate_reading, len, home, len, answer, 72),
                Task::OneClass(nu) => altuliscia_one_class(*n, m, len * n, nu.to_bits(), eps, s, budget,
                    crate_reading, len, home, len, answer, 72),
            }
        };
    }
}

/// The first trainer, with shrinking off: the general function on what the task starts from.
pub struct First<'a> {
    given: &'a Given,
    /// The task's problem, and the general one that it is.
    task: Problem,
    general: Problem,
    written: Written,
}

impl<'a> First<'a> {
    pub fn new(given: &'a Given, task: Task) -> First<'a> {
        let task = problem(given, task, false);
        First {
            given,
            general: general(&task),
            task,
            written: Written::new(given.n),
        }
    }

    /// The answer's fields, finished as the task's own function does it.
    pub fn fitted(&self) -> Result<Fit, u64> {
        match self.written.refusal {
            0 => {
                let words = finished(&self.task, &self.written.words());
                Ok(fit_of(self.given.n, &words))
            }
            number => Err(number),
        }
    }

    #[rustfmt::skip]
    pub fn fit(&mut self) {
        let Given { n, matrix, .. } = self.given;
        let len = 8 * n;
        let p = &self.general;
        let (c, a, l) = (p.ceilings.as_ptr().cast(), p.alphas.as_ptr().cast(), p.linear.as_ptr().cast());
        let w = &mut self.written;
        let (crate_reading, home) = (w.crate_reading.as_mut_ptr().cast(), w.home.as_mut_ptr().cast());
        // as above
        w.refusal = unsafe {
            altuliscia_general(*n, matrix.as_ptr().cast(), len * n, p.labels.as_ptr(), *n, c, len, a, len, l, len,
                u8::from(p.nu_rule), EPS.to_bits(), 0, BUDGET, crate_reading, len, home, len, w.answer.as_mut_ptr().cast(), 72)
        };
    }
}
