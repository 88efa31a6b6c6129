//! The proved run, over lists by position that are handed over loaded.
use crate::reached::{tell, Reached};
use oracle::problem::{Entry, Problem};
use oracle::run::{canonical, solve, Answer, Outcome, Reason};

extern "C" {
    /// Slices go as a pointer and a length. What it requires is seen to in `run`.
    fn trial_run(
        floats: *mut f64,
        floats_len: usize,
        numbers: *mut u64,
        numbers_len: usize,
        labels: *mut u8,
        labels_len: usize,
        matrix: *const u8,
        matrix_len: usize,
        bounds: *const f64,
        bounds_len: usize,
        out: *mut f64,
        out_len: usize,
        n: usize,
        nu: u8,
        shrinking: u8,
        eps: f64,
        budget: usize,
    ) -> u64;
}

/// What the proved run left.
pub struct Ran {
    pub floats: Vec<f64>,
    pub numbers: Vec<u64>,
    pub labels: Vec<u8>,
    pub out: [f64; 3],
    pub iterations: u64,
    pub refused: bool,
}

/// The lists as a run starts: weights, ceilings and linear terms in their fields, the rest what it should not read.
pub fn run(p: &Problem) -> Ran {
    let n = p.n as usize;
    let mut floats = vec![f64::NAN; 7 * n];
    floats[2 * n..3 * n].copy_from_slice(&p.alphas);
    floats[3 * n..4 * n].copy_from_slice(&p.ceilings);
    floats[4 * n..5 * n].copy_from_slice(&p.linear);
    let mut numbers: Vec<u64> = (0..2 * n as u64).map(|k| k % n as u64).collect();
    let mut labels = p.labels.clone();
    let mut out = [0.0; 3];
    let code = unsafe {
        trial_run(
            floats.as_mut_ptr(),
            floats.len(),
            numbers.as_mut_ptr(),
            numbers.len(),
            labels.as_mut_ptr(),
            labels.len(),
            p.matrix.as_ptr(),
            p.matrix.len(),
            p.ceilings.as_ptr(),
            p.ceilings.len(),
            out.as_mut_ptr(),
            out.len(),
            n,
            p.nu_rule as u8,
            p.shrinking as u8,
            p.eps,
            p.budget as usize,
        )
    };
    Ran {
        floats,
        numbers,
        labels,
        out,
        iterations: code / 4,
        refused: code % 4 == 2,
    }
}

fn same(a: &[f64], b: &[f64]) -> bool {
    a.len() == b.len() && a.iter().zip(b).all(|(x, y)| canonical(*x) == canonical(*y))
}

/// Where the two part, in a word; nothing where they agree.
pub fn differs(p: &Problem, answer: &Answer, ran: &Ran) -> Option<&'static str> {
    let n = p.n as usize;
    let a = match &answer.outcome {
        Outcome::Accepted(a) => a,
        Outcome::Refused(r) => {
            return if r.number == 11 && ran.refused {
                None
            } else {
                Some("refusal")
            };
        }
        Outcome::Fault(_) => return Some("oracle fault"),
    };
    let order: Vec<u64> = a.order.iter().map(|k| *k as u64).collect();
    let labels: Vec<u8> = a.labels.iter().map(|y| u8::from(*y)).collect();
    let reason = if ran.iterations == p.budget {
        Reason::Iterations
    } else {
        Reason::Threshold
    };
    let tests = [
        (ran.refused, "refused"),
        (ran.numbers[..n] != order[..], "order"),
        (ran.numbers[n..] != order[..], "kernel index"),
        (ran.labels != labels, "labels"),
        (!same(&ran.floats[..n], &a.gradient), "gradient"),
        (!same(&ran.floats[n..2 * n], &a.fixed), "fixed gradient"),
        (!same(&ran.floats[2 * n..3 * n], &a.weights), "weights"),
        (!same(&ran.floats[3 * n..4 * n], &a.ceilings), "ceilings"),
        (!same(&ran.floats[4 * n..5 * n], &a.linear), "linear term"),
        (canonical(ran.out[0]) != canonical(a.rho), "rho"),
        (
            a.r.map_or(false, |r| canonical(ran.out[1]) != canonical(r)),
            "r",
        ),
        (canonical(ran.out[2]) != canonical(a.obj), "obj"),
        (ran.iterations != a.iterations, "iterations"),
        (reason != a.reason, "reason"),
    ];
    tests
        .into_iter()
        .find(|(bad, _)| *bad)
        .map(|(_, name)| name)
}

/// Runs each general problem of the seeds with every budget from 1 up to its number of passes (24 at the most) and with its own,
/// and says how many differ.
pub fn compare(seed: u64, count: u64) -> u64 {
    let mut reached = Reached::default();
    let mut parted = 0;
    for k in seed..seed.saturating_add(count) {
        let mut p = oracle::draw(k);
        if p.entry != Entry::General || oracle::judge(&p).is_some() {
            continue;
        }
        let whole = solve(&p, false);
        let last = whole.accepted().map_or(p.budget.min(12), |a| a.iterations);
        let mut budgets: Vec<u64> = (1..=last.min(24)).collect();
        budgets.push(p.budget);
        for budget in budgets {
            p.budget = budget;
            let answer = solve(&p, false);
            let ran = run(&p);
            let zeros = reached.add(&p, &answer);
            if let Some(what) = differs(&p, &answer, &ran).or(zeros.as_deref()) {
                parted += 1;
                println!("seed {k}, budget {budget}: {what}");
            }
        }
    }
    let counts = reached.counts(&[Entry::General], &[11]);
    tell(&counts, count, parted)
}
