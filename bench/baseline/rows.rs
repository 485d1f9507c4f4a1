//! Row rewriting.

use super::cell::{Head, Sort, What};
use super::store::{Store, ABSENT};
use super::unify::{Pair, Stop};

const LABELS: usize = 24;

/// What a row shows: its fields by label, and the tail below them.
struct Side {
    fields: [Option<usize>; LABELS],
    tail: usize,
}

impl Store {
    fn walk(&self, mut at: usize) -> Side {
        let mut fields = [None; LABELS];
        loop {
            match self.cells[at].what {
                What::Link(next) => at = next,
                What::Row(label, field, tail) => {
                    fields[label as usize] = Some(field);
                    at = tail;
                }
                _ => return Side { fields, tail: at },
            }
        }
    }

    /// Gives a row a label with that field, where its tail is open.
    fn lend(&mut self, side: &mut Side, label: usize, field: usize) -> Result<(), Stop> {
        let cell = self.cells[side.tail];
        if let (What::Open, Sort::Row(lacked)) = (cell.what, cell.sort) {
            if self.limit - self.cells.len() < 2 {
                return Err(Stop::Full);
            }
            let row = self.cells.len();
            self.push(What::Row(label as u8, field, row + 1), cell.sort);
            self.push(What::Open, Sort::Row(lacked | 1 << label));
            self.link(side.tail, row);
            side.tail = row + 1;
            side.fields[label] = Some(field);
        }
        Ok(())
    }

    fn widen(&mut self, a: &mut Side, b: &mut Side) -> Result<(), Stop> {
        for label in 0..LABELS {
            match (a.fields[label], b.fields[label]) {
                (Some(field), None) => self.lend(b, label, field)?,
                (None, Some(field)) => self.lend(a, label, field)?,
                _ => {}
            }
        }
        Ok(())
    }

    pub fn join_rows(&mut self, pending: &mut Vec<Pair>, a: usize, b: usize) -> Result<(), Stop> {
        let mut left = self.walk(a);
        let mut right = self.walk(b);
        self.widen(&mut left, &mut right)?;
        self.link(a, b);
        for (one, other) in left.fields.iter().zip(&right.fields) {
            match (*one, *other) {
                (None, None) => {}
                (x, y) => pending.push((x.unwrap_or(ABSENT), y.unwrap_or(ABSENT))),
            }
        }
        self.join_tails(pending, left.tail, right.tail);
        Ok(())
    }

    fn join_tails(&mut self, pending: &mut Vec<Pair>, a: usize, b: usize) {
        match (self.cells[a].what, self.cells[b].what) {
            (What::Open, What::Open) => pending.push((a, b)),
            (What::Open, _) => self.empty(a),
            (_, What::Open) => self.empty(b),
            _ => {}
        }
    }

    fn empty(&mut self, at: usize) {
        let mut cell = self.cells[at];
        cell.what = What::Leaf(Head::Empty);
        self.put(at, cell);
    }
}
