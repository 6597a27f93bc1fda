//! Document 01 and requests S-1 to S-3 of document 02 in ordinary safe Rust: the expected answers
//! of the differential tests and the other side of the benchmark. Written from the documents alone.

#![forbid(unsafe_code)]

pub mod canonical;
pub mod drain;
pub mod event;
pub mod plan;
pub mod run;
pub mod table;
pub mod text;
pub mod upstream;

pub use event::Event;
pub use plan::{Plan, Stage};
pub use table::{Job, Table};
