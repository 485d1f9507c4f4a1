//! Constraint systems, written plainly from the rules: terms are rewritten by
//! substitution, and a mark is a copy of the whole.

mod classes;
mod line;
mod request;
mod solve;
mod sorts;
mod spell;
mod system;
mod terms;

pub use line::read_line;
pub use system::{Kind, System};
