//! The published Rust: as it is timed, and as the oracle runs it to be compared with.
use crate::given::{Given, Task};
use crate::library::BUDGET;
use crate::{Fit, EPS};
use linfa_kernel::Kernel;
use ndarray::ArrayView2;
use oracle::{Entry, Outcome, Problem};
use std::panic::{self, AssertUnwindSafe};
use timed::classification::{fit_c, fit_nu, fit_one_class};
use timed::{SolverParams, Svm};

pub struct Rust {
    task: Task,
    shrinking: bool,
    kernel: Kernel<f64>,
    labels: Vec<bool>,
    /// The solver asks for the samples only to pick the support vectors.
    samples: Vec<f64>,
    svm: Option<Svm<f64, f64>>,
}

impl Rust {
    pub fn new(given: &Given, task: Task, shrinking: bool) -> Rust {
        Rust {
            task,
            shrinking,
            kernel: Kernel::given(given.n, given.matrix.clone()),
            labels: given.labels.iter().map(|y| *y == 1).collect(),
            samples: (0..given.n).map(|k| k as f64).collect(),
            svm: None,
        }
    }

    /// What isn't timed: the last answer goes.
    pub fn forget(&mut self) {
        self.svm = None;
    }

    pub fn fit(&mut self) {
        self.svm = panic::catch_unwind(AssertUnwindSafe(|| rust_fit(self))).ok();
    }

    /// Nothing where it panicked.
    pub fn fitted(&self) -> Option<Fit> {
        self.svm.as_ref().map(|svm| Fit {
            rho: svm.rho,
            obj: svm.obj,
            iterations: svm.iterations as u64,
            crate_reading: svm.alpha.clone(),
            home: None,
        })
    }
}

/// By its name instructions are counted.
#[no_mangle]
#[inline(never)]
fn rust_fit(rust: &Rust) -> Svm<f64, f64> {
    let n = rust.samples.len();
    let params = SolverParams {
        eps: EPS,
        shrinking: rust.shrinking,
    };
    let dataset = ArrayView2::from_rows(n, 1, &rust.samples);
    let kernel = rust.kernel.clone();
    match rust.task {
        Task::C(c) => fit_c(params, dataset, kernel, &rust.labels, c, c),
        Task::Nu(nu) => fit_nu(params, dataset, kernel, &rust.labels, nu),
        Task::OneClass(nu) => fit_one_class(params, dataset, kernel, nu),
    }
}

/// The problem as the oracle has it.
pub fn problem(given: &Given, task: Task, shrinking: bool) -> Problem {
    let (entry, cost, nu) = match task {
        Task::C(c) => (Entry::C, c, 0.0),
        Task::Nu(nu) => (Entry::Nu, 0.0, nu),
        Task::OneClass(nu) => (Entry::OneClass, 0.0, nu),
    };
    let mut p = Problem::over(entry, given.n, &given.matrix);
    if entry.has_labels() {
        p.labels = given.labels.clone();
    }
    (p.cpos, p.cneg, p.nu, p.eps) = (cost, cost, nu, EPS);
    (p.shrinking, p.budget) = (shrinking, BUDGET);
    p
}

/// What the oracle answers, or the number of its refusal; 0 where it failed.
pub fn oracle(given: &Given, task: Task, shrinking: bool) -> Result<Fit, u64> {
    match oracle::solve(&problem(given, task, shrinking), false).outcome {
        Outcome::Accepted(a) => Ok(Fit {
            rho: a.rho,
            obj: a.obj,
            iterations: a.iterations,
            crate_reading: a.crate_reading,
            home: Some(a.home),
        }),
        Outcome::Refused(r) => Err(r.number),
        Outcome::Fault(_) => Err(0),
    }
}

/// From now on a panic of the timed Rust says nothing on the terminal.
pub fn quiet() {
    let loud = panic::take_hook();
    panic::set_hook(Box::new(move |info| {
        let solver = info.location().map_or("", |l| l.file());
        if !solver.ends_with("solver_smo.rs.txt") {
            loud(info);
        }
    }));
}
