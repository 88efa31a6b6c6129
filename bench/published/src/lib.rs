//! The published solver as it is timed: its two files as they were published, without a line of the oracle's, and the fits. Only
//! the record of the answer is written here. Its own limit of passes is 10,000,000 for any n that the library takes.

use linfa_kernel::KernelMethod;
use std::marker::PhantomData;

pub use linfa::Float;
pub use solver_smo::{SeparatingHyperplane, SolverParams};

#[rustfmt::skip]
#[path = "../../../oracle/linfa-svm/src/classification.rs"]
pub mod classification;
#[rustfmt::skip]
#[allow(clippy::all)]
#[path = "../../../oracle/published/permutable_kernel.rs.txt"]
pub mod permutable_kernel;
#[rustfmt::skip]
#[allow(clippy::all)]
#[path = "../../../oracle/published/solver_smo.rs.txt"]
pub mod solver_smo;

#[derive(Debug, Clone, PartialEq, Eq)]
pub enum ExitReason {
    ReachedThreshold,
    ReachedIterations,
}

#[derive(Debug, Clone, PartialEq)]
pub struct Svm<F: Float, T> {
    pub alpha: Vec<F>,
    pub rho: F,
    pub r: Option<F>,
    pub exit_reason: ExitReason,
    pub iterations: usize,
    pub obj: F,
    pub kernel_method: KernelMethod<F>,
    pub sep_hyperplane: SeparatingHyperplane<F>,
    pub probability_coeffs: Option<(F, F)>,
    pub phantom: PhantomData<T>,
}
