//! The solver's algorithm as plain Rust, to measure the proved one against: the
//! same cells, union by rank, trail, row rewriting and stamped occurs check, with
//! the bounds checks that Rust has.

mod cell;
mod occurs;
mod rows;
mod store;
mod system;
mod unify;
pub mod workloads;
