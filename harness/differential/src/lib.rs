//! Differential tests: the library and the reference get the same random cases, and every
//! answer and every byte must be the same. A case is fixed by its seed and index alone.

pub mod cases;
pub mod cells;
pub mod compare;
pub mod counts;
pub mod events;
pub mod guarded;
pub mod inputs;
pub mod patterns;
pub mod plans;
pub mod random;
pub mod rows;
pub mod texts;

pub use cases::{run_case, run_cases, run_shuffled, Outcome};
