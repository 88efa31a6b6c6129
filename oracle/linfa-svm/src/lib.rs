//! The published solver, compiled as it stands over small stand-ins.
//!
//! `permutable_kernel` is the published file, and `solver_smo` the published
//! file with added lines, each of which ends in `// oracle`. `classification`,
//! `regression` and this file hold parts of the published files, word for word, between a
//! line `// published: NAME` and a line `// end`. A test compares all of it
//! with the published texts byte for byte.

use linfa_kernel::KernelMethod;
use std::marker::PhantomData;

pub use linfa::Float;
pub use solver_smo::{SeparatingHyperplane, SolverParams};

#[rustfmt::skip]
pub mod classification;
pub mod floor;
#[rustfmt::skip]
#[allow(clippy::all)]
pub mod permutable_kernel;
#[rustfmt::skip]
pub mod regression;
#[rustfmt::skip]
#[allow(unused_assignments, unused_variables, clippy::all)]
pub mod solver_smo;
pub mod watch;

// published: lib.rs
/// Reason for stopping
///
/// SMO can either exit because a threshold is reached or the iterations are maxed out. To
/// differentiate between both this flag is passed with the solution.
#[cfg_attr(
    feature = "serde",
    derive(Serialize, Deserialize),
    serde(crate = "serde_crate")
)]
#[derive(Debug, Clone, PartialEq, Eq, Hash)]
pub enum ExitReason {
    ReachedThreshold,
    ReachedIterations,
}

/// Fitted Support Vector Machines model
///
/// This is the result of the SMO optimizer and contains the support vectors, quality of solution
/// and optionally the linear hyperplane.
#[cfg_attr(
    feature = "serde",
    derive(Serialize, Deserialize),
    serde(crate = "serde_crate")
)]
#[derive(Debug, Clone, PartialEq)]
pub struct Svm<F: Float, T> {
    pub alpha: Vec<F>,
    pub rho: F,
    r: Option<F>,
    exit_reason: ExitReason,
    iterations: usize,
    obj: F,
    #[cfg_attr(
        feature = "serde",
        serde(bound(
            serialize = "KernelMethod<F>: Serialize",
            deserialize = "KernelMethod<F>: Deserialize<'de>"
        ))
    )]
    // the only thing I need the kernel for after the training is to
    // compute the distances, but for that I only need the kernel method
    // and not the whole inner matrix
    kernel_method: KernelMethod<F>,
    sep_hyperplane: SeparatingHyperplane<F>,
    probability_coeffs: Option<(F, F)>,
    phantom: PhantomData<T>,
}

impl<F: Float, T> Svm<F, T> {
    /// Returns the number of support vectors
    ///
    /// This function returns the number of support vectors which have an influence on the decision
    /// outcome greater than zero.
    pub fn nsupport(&self) -> usize {
        self.alpha
            .iter()
            // around 1e-5 for f32 and 2e-14 for f64
            .filter(|x| x.abs() > F::cast(100.) * F::epsilon())
            .count()
    }
    pub(crate) fn with_phantom<S>(self) -> Svm<F, S> {
        Svm {
            alpha: self.alpha,
            rho: self.rho,
            r: self.r,
            exit_reason: self.exit_reason,
            obj: self.obj,
            iterations: self.iterations,
            sep_hyperplane: self.sep_hyperplane,
            kernel_method: self.kernel_method,
            probability_coeffs: self.probability_coeffs,
            phantom: PhantomData,
        }
    }
    // end

    /// The `r` of a run under the nu rule.
    pub fn r(&self) -> Option<F> {
        self.r
    }

    pub fn exit_reason(&self) -> &ExitReason {
        &self.exit_reason
    }

    pub fn iterations(&self) -> usize {
        self.iterations
    }

    pub fn obj(&self) -> F {
        self.obj
    }

    pub fn sep_hyperplane(&self) -> &SeparatingHyperplane<F> {
        &self.sep_hyperplane
    }
}
