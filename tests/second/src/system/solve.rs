//! Makes two terms equal, or says why that cannot be.
//!
//! What comes out is fixed by the rules, whatever the order of work, but for one
//! thing: how many cells rows take.
//! - A label that two tails get in one call costs twice if the tails become equal
//!   only later. So the order is fixed here: the newest pair first; of a function
//!   type the argument before the result, of a row the tail first and then the fields
//!   from the highest label down.
//! - A row over an empty tail extends an open one by each label that it shows, and
//!   which absent labels it shows is free. So cells are counted by the fewest and the
//!   most that they can be.

use std::collections::BTreeMap;

use super::sorts::LABELS;
use super::terms::{Field, Flat, Term, Terms, Var, ABSENT};

pub enum Failure {
    /// Two heads differ: at some depth no solution makes both agree.
    Clash,
    /// A value would be a part of itself.
    Cycle,
}

/// Bounds of the number of cells taken.
#[derive(Clone, Copy, Debug, Default)]
pub struct Taken {
    pub fewest: usize,
    pub most: usize,
}

pub struct Solver<'a> {
    pub terms: &'a mut Terms,
    /// The variables of the codes, which are rewritten as well.
    pub codes: &'a mut [Var],
    pub taken: Taken,
    pending: Vec<(Var, Var)>,
}

impl<'a> Solver<'a> {
    pub fn new(terms: &'a mut Terms, codes: &'a mut [Var]) -> Solver<'a> {
        Solver {
            terms,
            codes,
            taken: Taken::default(),
            pending: Vec::new(),
        }
    }

    pub fn equate(&mut self, a: Var, b: Var) -> Result<(), Failure> {
        self.pending.push((a, b));
        while let Some((a, b)) = self.pending.pop() {
            if a != b {
                self.join(a, b)?;
            }
        }
        if self.terms.has_cycle() {
            return Err(Failure::Cycle);
        }
        Ok(())
    }

    fn join(&mut self, a: Var, b: Var) -> Result<(), Failure> {
        match (self.terms.get(a).clone(), self.terms.get(b).clone()) {
            (Term::Open, _) => self.replace(a, b),
            (_, Term::Open) => self.replace(b, a),
            (Term::Built(one, first), Term::Built(other, second)) => {
                if one != other {
                    return Err(Failure::Clash);
                }
                self.replace(a, b);
                // The first children come first, so they are put down last.
                for (x, y) in first.into_iter().zip(second).rev() {
                    self.put(x, y, a, b);
                }
            }
            (Term::Empty, Term::Empty) => self.replace(a, b),
            (Term::Row(..) | Term::Empty, Term::Row(..) | Term::Empty) => self.join_rows(a, b),
            _ => unreachable!("both are of one sort"),
        }
        Ok(())
    }

    /// Puts down a pair that was read before `old` was written as `new`.
    fn put(&mut self, x: Var, y: Var, old: Var, new: Var) {
        let now = |var| if var == old { new } else { var };
        self.pending.push((now(x), now(y)));
    }

    fn join_rows(&mut self, a: Var, b: Var) {
        let mut one = self.terms.flat(a);
        let mut other = self.terms.flat(b);
        for label in 0..LABELS {
            match (one.fields.get(&label), other.fields.get(&label)) {
                (Some(&field), None) => self.lend(&mut other, label, field),
                (None, Some(&field)) => self.lend(&mut one, label, field),
                _ => {}
            }
        }
        let fields = both(&one, &other);
        let is_open = |tail| *self.terms.get(tail) == Term::Open;
        let tails = (is_open(one.tail), is_open(other.tail));
        match tails {
            (true, false) => self.terms.set(one.tail, Term::Empty),
            (false, true) => self.terms.set(other.tail, Term::Empty),
            _ => {}
        }
        if tails != (true, true) && !fields.is_empty() {
            let tail = self.terms.add(Term::Empty);
            self.terms.set(b, Term::Row(fields.clone(), tail));
        }
        self.replace(a, b);
        for label in fields.keys() {
            let at = |row: &Flat| row.fields.get(label).map_or(ABSENT, |field| field.var);
            self.put(at(&one), at(&other), a, b);
        }
        if tails == (true, true) {
            self.put(one.tail, other.tail, a, b);
        }
    }

    /// Gives a row a label with that field, where its tail is open.
    fn lend(&mut self, row: &mut Flat, label: u32, field: Field) {
        if *self.terms.get(row.tail) != Term::Open {
            return;
        }
        self.taken.most += 2;
        if field.sure {
            self.taken.fewest += 2;
        }
        let rest = self.terms.add(Term::Open);
        let fields = BTreeMap::from([(label, field)]);
        self.terms.set(row.tail, Term::Row(fields, rest));
        row.tail = rest;
        row.fields.insert(label, field);
    }

    fn replace(&mut self, old: Var, new: Var) {
        // The field that rows own keeps its variable.
        let (old, new) = if old == ABSENT {
            (new, old)
        } else {
            (old, new)
        };
        self.terms.replace(old, new);
        let pending = self.pending.iter_mut().flat_map(|(x, y)| [x, y]);
        for var in self.codes.iter_mut().chain(pending) {
            if *var == old {
                *var = new;
            }
        }
    }
}

/// The fields of two rows that become one: sure to be shown if each shows them.
fn both(one: &Flat, other: &Flat) -> BTreeMap<u32, Field> {
    let mut fields = one.fields.clone();
    for (label, field) in &mut fields {
        field.sure &= other.fields.get(label).is_some_and(|field| field.sure);
    }
    for (label, field) in &other.fields {
        let alone = Field {
            sure: false,
            ..*field
        };
        fields.entry(*label).or_insert(alone);
    }
    fields
}
