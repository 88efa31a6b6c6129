//! The published `update` by itself, on numbers that no run need reach. This
//! file is a child of the solver's, so it sees what the solver hides.

use super::{SolverParams, SolverState};
use crate::floor::USUAL;
use crate::permutable_kernel::PermutableKernel;
use crate::watch::Given;
use linfa_kernel::Kernel;
use ndarray::ArrayView2;

/// The two weights that the published step leaves, of two samples.
pub fn update(given: &Given) -> [f64; 2] {
    let targets = vec![true, given.agree];
    // between different labels the kernel negates it back
    let entry = if given.agree {
        given.entry
    } else {
        -given.entry
    };
    let [first, second] = given.diagonals;
    let kernel = Kernel::given(2, vec![first, entry, entry, second]);
    let params = SolverParams {
        eps: 0.0,
        shrinking: false,
        budget: 1,
        floor: USUAL,
        travelling: false,
    };
    let mut state = SolverState::new(
        given.weights.to_vec(),
        vec![0.0; 2],
        targets.clone(),
        ArrayView2::from_rows(2, 1, &[0.0; 2]),
        PermutableKernel::new(kernel, targets),
        given.ceilings.to_vec(),
        params,
        false,
    );
    // in the place of those that follow from the weights
    state.gradient = given.gradients.to_vec();
    state.update((0, 1));
    [0, 1].map(|k| state.alpha[k].val())
}
