//! The oracle: the published Rust solver, run on problems that a caller gives,
//! with every input refused that the rule refuses.
//!
//! - [`problem`]: what a caller lends and asks.
//! - [`judge`]: every refusal but 11, before anything runs.
//! - [`run`]: the run itself, refusal 11, both readings; a single step.
//! - [`retired`]: retired samples, taken out before a run and put back.
//! - [`general`]: C, nu and one-class as problems of the general entry.
//! - [`draw`]: problems and single steps from a 64-bit seed.
//! - [`marks`]: what a drawn or recorded set reaches.
//! - [`record`]: the file of recorded answers.
//! - [`worked`]: the rule's worked examples.
//! - [`show`]: a problem and its answer for a reader.

pub mod draw;
pub mod general;
pub mod judge;
pub mod marks;
pub mod problem;
pub mod random;
pub mod record;
pub mod retired;
pub mod run;
pub mod show;
pub mod worked;

pub use draw::{draw, draw_faint, draw_modes, draw_retired, draw_step, draw_still, draw_tuned};
pub use judge::{judge, Refusal};
pub use problem::{Entry, Problem};
pub use run::{solve, step, Accepted, Answer, Given, Outcome, Reason};
