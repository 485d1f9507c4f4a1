//! The walk for cycles. Stamps go by a clock that never goes back, so none is ever
//! cleared.

use super::cell::{Cell, Undo, What};

pub struct Seen {
    stamps: Vec<usize>,
    clock: usize,
}

impl Seen {
    pub fn new(limit: usize) -> Seen {
        Seen {
            stamps: vec![0; limit],
            clock: 0,
        }
    }

    /// Whether nothing that was written or added since refers to itself.
    pub fn acyclic(&mut self, cells: &[Cell], written: &[Undo], first_new: usize) -> bool {
        let base = self.clock;
        self.clock += 1;
        written.iter().all(|undo| self.visit(cells, base, undo.at))
            && (first_new..cells.len()).all(|at| self.visit(cells, base, at))
    }

    fn visit(&mut self, cells: &[Cell], base: usize, at: usize) -> bool {
        let stamp = self.stamps[at];
        if stamp > base + 1 {
            return true;
        }
        if stamp == base + 1 {
            return false;
        }
        self.stamps[at] = base + 1;
        let ends = match cells[at].what {
            What::Open | What::Leaf(_) => true,
            What::Link(x) | What::One(_, x) => self.visit(cells, base, x),
            What::Two(x, y) | What::Row(_, x, y) => {
                self.visit(cells, base, x) && self.visit(cells, base, y)
            }
        };
        if ends {
            self.clock += 1;
            self.stamps[at] = self.clock;
        }
        ends
    }
}
