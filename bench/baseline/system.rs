//! The calls of a system of trees or rows.

use super::cell::{Head, Sort, What};
use super::occurs::Seen;
use super::store::Store;
use super::unify::{Pair, Stop};

const ALL_LABELS: u32 = 1 << 24;
const MOST_MARKS: usize = 8;

#[derive(Clone, Copy, PartialEq, Eq, Debug)]
pub enum Fault {
    Clash,
    Cyclic,
    NoCells,
    Unknown,
    TooManyMarks,
}

#[derive(Clone, Copy, PartialEq, Eq, Debug)]
pub enum View {
    Open(usize),
    Built(Head, usize, usize, u8),
}

#[derive(Clone, Copy)]
struct Saved {
    cells: usize,
    trail: usize,
    calls: usize,
}

pub struct System {
    rows: bool,
    store: Store,
    seen: Seen,
    pending: Vec<Pair>,
    marks: Vec<Saved>,
    calls: usize,
}

impl System {
    pub fn new(rows: bool, capacity: usize) -> System {
        let store = Store::new(capacity);
        let seen = Seen::new(store.limit);
        System {
            rows,
            pending: Vec::with_capacity(1 + 26 * store.limit),
            store,
            seen,
            marks: Vec::with_capacity(MOST_MARKS),
            calls: 0,
        }
    }

    fn sort_of(&self, code: usize) -> Result<Sort, Fault> {
        let cell = self.store.cells.get(code);
        cell.map(|cell| cell.sort).ok_or(Fault::Unknown)
    }

    fn wants(&self, code: usize, sort: Sort) -> Result<(), Fault> {
        match self.sort_of(code)? == sort {
            true => Ok(()),
            false => Err(Fault::Unknown),
        }
    }

    fn add(&mut self, what: What, sort: Sort) -> Result<usize, Fault> {
        let code = self.store.add(what, sort)?;
        self.calls += 1;
        Ok(code)
    }

    pub fn fresh(&mut self, sort: Sort) -> Result<usize, Fault> {
        let known = match sort {
            Sort::Type => true,
            Sort::Field => self.rows,
            Sort::Row(lacked) => self.rows && lacked < ALL_LABELS,
        };
        if !known {
            return Err(Fault::Unknown);
        }
        self.add(What::Open, sort)
    }

    pub fn build(
        &mut self,
        head: Head,
        first: usize,
        second: usize,
        label: u8,
        lacked: u32,
    ) -> Result<usize, Fault> {
        if !self.rows && head as u8 > Head::List as u8 {
            return Err(Fault::Unknown);
        }
        match head {
            Head::Whole | Head::Tenth | Head::Flag => self.add(What::Leaf(head), Sort::Type),
            Head::Absent => self.add(What::Leaf(head), Sort::Field),
            Head::To => {
                self.wants(first, Sort::Type)?;
                self.wants(second, Sort::Type)?;
                self.add(What::Two(first, second), Sort::Type)
            }
            Head::List => {
                self.wants(first, Sort::Type)?;
                self.add(What::One(head, first), Sort::Type)
            }
            Head::Has => {
                self.wants(first, Sort::Type)?;
                self.add(What::One(head, first), Sort::Field)
            }
            Head::Record => {
                self.wants(first, Sort::Row(0))?;
                self.add(What::One(head, first), Sort::Type)
            }
            Head::Empty => {
                if lacked >= ALL_LABELS {
                    return Err(Fault::Unknown);
                }
                self.add(What::Leaf(head), Sort::Row(lacked))
            }
            Head::Row => self.build_row(first, second, label, lacked),
        }
    }

    fn build_row(
        &mut self,
        field: usize,
        rest: usize,
        label: u8,
        lacked: u32,
    ) -> Result<usize, Fault> {
        if lacked >= ALL_LABELS || label > 23 || lacked & (1 << label) == 0 {
            return Err(Fault::Unknown);
        }
        self.wants(field, Sort::Field)?;
        self.wants(rest, Sort::Row(lacked))?;
        let sort = Sort::Row(lacked & !(1 << label));
        self.add(What::Row(label, field, rest), sort)
    }

    pub fn equate(&mut self, a: usize, b: usize) -> Result<(), Fault> {
        if self.sort_of(a)? != self.sort_of(b)? {
            return Err(Fault::Unknown);
        }
        let (cells, trail) = (self.store.cells.len(), self.store.trail.len());
        self.pending.clear();
        self.pending.push((a, b));
        let fault = match self.store.run(&mut self.pending) {
            Ok(()) => {
                let written = &self.store.trail[trail..];
                if self.seen.acyclic(&self.store.cells, written, cells) {
                    return Ok(());
                }
                Fault::Cyclic
            }
            Err(Stop::Clash) => Fault::Clash,
            Err(Stop::Full) => Fault::NoCells,
        };
        self.store.back_to(cells, trail);
        Err(fault)
    }

    pub fn look(&self, code: usize) -> Result<View, Fault> {
        self.sort_of(code)?;
        let root = self.store.find(code);
        Ok(match self.store.cells[root].what {
            What::Leaf(head) => View::Built(head, 0, 0, 0),
            What::One(head, x) => View::Built(head, x, 0, 0),
            What::Two(x, y) => View::Built(Head::To, x, y, 0),
            What::Row(label, x, y) => View::Built(Head::Row, x, y, label),
            What::Open | What::Link(_) => View::Open(root),
        })
    }

    pub fn mark(&mut self) -> Result<(), Fault> {
        if self.marks.len() == MOST_MARKS {
            return Err(Fault::TooManyMarks);
        }
        self.marks.push(Saved {
            cells: self.store.cells.len(),
            trail: self.store.trail.len(),
            calls: self.calls,
        });
        Ok(())
    }

    pub fn back(&mut self) -> Result<(), Fault> {
        let saved = self.marks.pop().ok_or(Fault::Unknown)?;
        self.store.back_to(saved.cells, saved.trail);
        self.calls = saved.calls;
        Ok(())
    }
}
