//! The calls of a system, with their refusals in order.

use super::classes::{self, Entry};
use super::request::{Code, Refusal, Request};
use super::solve::{Failure, Solver, Taken};
use super::sorts::{Head, Sort};
use super::spell;
use super::terms::{Field, Term, Terms, Var};

const HIGHEST_CLASS: u32 = 3;

/// What a system knows.
#[derive(Clone, Copy, Debug)]
pub struct Kind {
    /// Ten heads, or the first five.
    pub rows: bool,
    /// Four classes, or none.
    pub classes: bool,
}

impl Kind {
    fn most_marks(self) -> usize {
        if self.classes {
            7
        } else {
            8
        }
    }
}

/// All of a system but its marks.
#[derive(Clone, Debug)]
pub struct State {
    pub terms: Terms,
    /// The variable of each code, in the order of their making.
    pub codes: Vec<Var>,
    pub sorts: Vec<Sort>,
    /// Cells that equates took.
    taken: Taken,
    pub table: Vec<Entry>,
}

impl State {
    /// The first code that has this variable. An open type has one: only fresh makes it.
    pub fn first_code(&self, var: Var) -> Code {
        let mut codes = self.codes.iter();
        codes
            .position(|other| *other == var)
            .expect("an open type has a code")
    }
}

pub struct System {
    kind: Kind,
    capacity: usize,
    state: State,
    marks: Vec<State>,
}

impl System {
    pub fn new(kind: Kind, capacity: usize) -> System {
        let state = State {
            terms: Terms::new(),
            codes: Vec::new(),
            sorts: Vec::new(),
            taken: Taken::default(),
            table: Vec::new(),
        };
        System {
            kind,
            capacity,
            state,
            marks: Vec::new(),
        }
    }

    /// The answer to a request. `given` tells whether the program under test said
    /// that the cells do not suffice; it is followed where that is free.
    pub fn answer(&mut self, request: &Request, given: Option<bool>) -> String {
        let result = match request {
            Request::Fresh(sort) => self.fresh(sort, given).map(|code| format!("ok #{code}")),
            Request::Build(head, children) => {
                let code = self.build(head, children, given);
                code.map(|code| format!("ok #{code}"))
            }
            Request::Equate(a, b) => self.equate(*a, *b, given).map(done),
            Request::Demand(class, code) => self.demand(*class, *code).map(done),
            Request::Look(code) => self.look(*code),
            Request::Tally => Ok(self.tally()),
            Request::Mark => self.mark().map(done),
            Request::Keep => return self.end_mark(false),
            Request::Back => return self.end_mark(true),
            Request::Type(codes) => self.types(codes),
        };
        match result {
            Ok(answer) => answer,
            Err(refusal) => format!("fault {} {}", refusal.number, refusal.layer),
        }
    }

    fn sort(&self, code: Code) -> Result<&Sort, Refusal> {
        let sort = self.state.sorts.get(code);
        sort.ok_or(Refusal::of_bottom(21))
    }

    fn fresh(&mut self, sort: &Sort, given: Option<bool>) -> Result<Code, Refusal> {
        if !sort.is_known(self.kind.rows) {
            return Err(Refusal::of_bottom(21));
        }
        self.add(Term::Open, sort.clone(), given)
    }

    fn build(
        &mut self,
        head: &Head,
        children: &[Code],
        given: Option<bool>,
    ) -> Result<Code, Refusal> {
        let known = self.kind.rows || head.is_plain();
        if !known || !head.has_good_labels() {
            return Err(Refusal::of_bottom(21));
        }
        for (child, wanted) in children.iter().zip(head.takes()) {
            if *self.sort(*child)? != wanted {
                return Err(Refusal::of_bottom(21));
            }
        }
        let parts: Vec<Var> = children
            .iter()
            .map(|code| self.state.codes[*code])
            .collect();
        self.add(term(head, parts), head.gives(), given)
    }

    /// One code more, where a cell is left.
    fn add(&mut self, term: Term, sort: Sort, given: Option<bool>) -> Result<Code, Refusal> {
        if self.lacks_cells(1, Taken::default(), given) {
            return Err(Refusal::of_bottom(16));
        }
        let var = self.state.terms.add(term);
        self.state.codes.push(var);
        self.state.sorts.push(sort);
        Ok(self.state.codes.len() - 1)
    }

    /// Whether there are too few cells for so many codes more and what an equate took.
    /// Where that depends on what rows show, the program under test is followed.
    fn lacks_cells(&self, codes: usize, taken: Taken, given: Option<bool>) -> bool {
        let codes = self.state.codes.len() + codes;
        let surely = codes + self.state.taken.fewest + taken.fewest > self.capacity;
        let perhaps = codes + self.state.taken.most + taken.most > self.capacity;
        surely || (perhaps && given.unwrap_or(true))
    }

    fn equate(&mut self, a: Code, b: Code, given: Option<bool>) -> Result<(), Refusal> {
        if self.sort(a)? != self.sort(b)? {
            return Err(Refusal::of_bottom(21));
        }
        let mut next = self.state.clone();
        let (x, y) = (next.codes[a], next.codes[b]);
        let mut solver = Solver::new(&mut next.terms, &mut next.codes);
        let solved = solver.equate(x, y);
        let taken = solver.taken;
        if let Err(failure) = solved {
            return Err(self.denial(failure, given));
        }
        if self.lacks_cells(0, taken, given) {
            return Err(Refusal::of_bottom(16));
        }
        next.taken.fewest += taken.fewest;
        next.taken.most += taken.most;
        next.table = classes::hold_again(&next, &self.state.table)?;
        self.state = next;
        Ok(())
    }

    /// Without a solution 16 can come instead, where cells run out before that is
    /// found; but never while there are 49 cells for each code, nor without rows.
    fn denial(&self, failure: Failure, given: Option<bool>) -> Refusal {
        let few_cells = 49 * self.state.codes.len() > self.capacity;
        if given == Some(true) && few_cells && self.kind.rows {
            return Refusal::of_bottom(16);
        }
        Refusal::of_bottom(match failure {
            Failure::Clash => 12,
            Failure::Cycle => 13,
        })
    }

    fn demand(&mut self, class: u32, code: Code) -> Result<(), Refusal> {
        let sort = self.sort(code)?;
        if class > HIGHEST_CLASS {
            return Err(match self.kind.classes {
                true => Refusal::of_classes(21),
                false => Refusal::of_bottom(21),
            });
        }
        if *sort != Sort::Type {
            return Err(Refusal::of_bottom(21));
        }
        if !self.kind.classes {
            return Err(Refusal::of_bottom(11));
        }
        let mut table = self.state.table.clone();
        let var = self.state.codes[code];
        classes::hold(&self.state, &mut table, class as usize, var)?;
        self.state.table = table;
        Ok(())
    }

    /// The kind of view alone: which code stands for others is free.
    fn look(&self, code: Code) -> Result<String, Refusal> {
        self.sort(code)?;
        Ok(spell::view(self.state.terms.get(self.state.codes[code])))
    }

    fn tally(&self) -> String {
        let calls = self.state.codes.len();
        format!("ok {calls} {} {}", self.capacity, self.marks.len())
    }

    fn mark(&mut self) -> Result<(), Refusal> {
        if self.marks.len() == self.kind.most_marks() {
            return Err(match self.kind.classes {
                true => Refusal::of_classes(23),
                false => Refusal::of_bottom(23),
            });
        }
        self.marks.push(self.state.clone());
        Ok(())
    }

    fn end_mark(&mut self, restores: bool) -> String {
        let Some(saved) = self.marks.pop() else {
            return "none".to_string();
        };
        if restores {
            self.state = saved;
        }
        "ok".to_string()
    }

    fn types(&self, codes: &[Code]) -> Result<String, Refusal> {
        codes
            .iter()
            .try_for_each(|code| self.sort(*code).map(drop))?;
        Ok(spell::types(&self.state, codes))
    }
}

fn done(_: ()) -> String {
    "ok".to_string()
}

fn term(head: &Head, children: Vec<Var>) -> Term {
    let name = match head {
        Head::Whole => "whole",
        Head::Tenth => "tenth",
        Head::Flag => "flag",
        Head::To => "to",
        Head::List => "list",
        Head::Record => "record",
        Head::Absent => "absent",
        Head::Has => "has",
        Head::Empty(_) => return Term::Empty,
        Head::Row(label, _) => {
            let field = Field {
                var: children[0],
                sure: true,
            };
            return Term::Row([(*label, field)].into(), children[1]);
        }
    };
    Term::Built(name, children)
}
