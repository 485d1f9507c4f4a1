//! Terms. Every place of a term has a variable, and each variable stands for
//! itself or for a head over variables. To solve an equation is to write one
//! variable for another wherever it stands.

use std::collections::{BTreeMap, BTreeSet};

pub type Var = usize;

/// The absent field that rows own.
pub const ABSENT: Var = 0;

/// A field that a row has at a label. Which absent labels a row over an empty tail
/// shows is free: of some it is sure that they are shown, of others not.
#[derive(Clone, Copy, Debug, PartialEq, Eq)]
pub struct Field {
    pub var: Var,
    pub sure: bool,
}

#[derive(Clone, Debug, PartialEq, Eq)]
pub enum Term {
    Open,
    /// A head that is no row's, by its name, over its children.
    Built(&'static str, Vec<Var>),
    Empty,
    /// Some fields by their labels, and the row of all other labels.
    Row(BTreeMap<u32, Field>, Var),
}

impl Term {
    pub fn children(&self) -> Vec<Var> {
        match self {
            Term::Open | Term::Empty => vec![],
            Term::Built(_, children) => children.clone(),
            Term::Row(fields, tail) => {
                let fields = fields.values().map(|field| field.var);
                fields.chain([*tail]).collect()
            }
        }
    }

    fn replace(&mut self, old: Var, new: Var) {
        let change = |var: &mut Var| {
            if *var == old {
                *var = new;
            }
        };
        match self {
            Term::Open | Term::Empty => {}
            Term::Built(_, children) => children.iter_mut().for_each(change),
            Term::Row(fields, tail) => {
                let fields = fields.values_mut().map(|field| &mut field.var);
                fields.chain([tail]).for_each(change);
            }
        }
    }
}

/// A row with all that is known of it: its fields, and an open or empty tail.
pub struct Flat {
    pub fields: BTreeMap<u32, Field>,
    pub tail: Var,
}

#[derive(Clone, Debug)]
pub struct Terms {
    terms: BTreeMap<Var, Term>,
    next: Var,
}

impl Terms {
    pub fn new() -> Terms {
        Terms {
            terms: BTreeMap::from([(ABSENT, Term::Built("absent", vec![]))]),
            next: ABSENT + 1,
        }
    }

    pub fn add(&mut self, term: Term) -> Var {
        let var = self.next;
        self.next += 1;
        self.terms.insert(var, term);
        var
    }

    pub fn get(&self, var: Var) -> &Term {
        &self.terms[&var]
    }

    pub fn set(&mut self, var: Var, term: Term) {
        self.terms.insert(var, term);
    }

    /// Writes `new` for `old` everywhere; `old` is gone.
    pub fn replace(&mut self, old: Var, new: Var) {
        self.terms.remove(&old);
        for term in self.terms.values_mut() {
            term.replace(old, new);
        }
    }

    pub fn flat(&self, row: Var) -> Flat {
        match self.get(row) {
            Term::Row(fields, tail) => {
                let mut flat = self.flat(*tail);
                flat.fields.extend(fields);
                flat
            }
            _ => Flat {
                fields: BTreeMap::new(),
                tail: row,
            },
        }
    }

    /// Whether some variable stands for a term that has it as a proper part.
    pub fn has_cycle(&self) -> bool {
        // Variables whose parts are all known to end, from the leaves upwards.
        let mut ending: BTreeSet<Var> = BTreeSet::new();
        loop {
            let before = ending.len();
            for (var, term) in &self.terms {
                if term.children().iter().all(|child| ending.contains(child)) {
                    ending.insert(*var);
                }
            }
            if ending.len() == before {
                return before < self.terms.len();
            }
        }
    }
}
