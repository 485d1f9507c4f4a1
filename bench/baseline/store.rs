//! The cells and their trail.

use super::cell::{Cell, Head, Sort, Undo, What};
use super::system::Fault;

/// The absent field that rows own.
pub const ABSENT: usize = 0;

pub struct Store {
    pub cells: Vec<Cell>,
    pub trail: Vec<Undo>,
    pub limit: usize,
}

impl Store {
    pub fn new(capacity: usize) -> Store {
        let limit = capacity + 1;
        let mut store = Store {
            cells: Vec::with_capacity(limit),
            trail: Vec::with_capacity(3 * limit),
            limit,
        };
        store.push(What::Leaf(Head::Absent), Sort::Field);
        store
    }

    pub fn push(&mut self, what: What, sort: Sort) -> usize {
        self.cells.push(Cell {
            what,
            rank: 0,
            sort,
        });
        self.cells.len() - 1
    }

    pub fn add(&mut self, what: What, sort: Sort) -> Result<usize, Fault> {
        if self.cells.len() >= self.limit {
            return Err(Fault::NoCells);
        }
        Ok(self.push(what, sort))
    }

    pub fn find(&self, mut at: usize) -> usize {
        while let What::Link(next) = self.cells[at].what {
            at = next;
        }
        at
    }

    pub fn put(&mut self, at: usize, cell: Cell) {
        let was = self.cells[at];
        self.trail.push(Undo { at, was });
        self.cells[at] = cell;
    }

    pub fn link(&mut self, from: usize, to: usize) {
        let (f, t) = (self.cells[from], self.cells[to]);
        self.put(
            from,
            Cell {
                what: What::Link(to),
                ..f
            },
        );
        self.put(
            to,
            Cell {
                rank: t.rank.max(f.rank + 1),
                ..t
            },
        );
    }

    pub fn back_to(&mut self, cells: usize, trail: usize) {
        while self.trail.len() > trail {
            if let Some(undo) = self.trail.pop() {
                self.cells[undo.at] = undo.was;
            }
        }
        self.cells.truncate(cells);
    }
}
