//! Solved values as text.

use super::classes::NAMES;
use super::request::Code;
use super::sorts::Sort;
use super::system::State;
use super::terms::{Term, Var};

const MOST_WORDS: usize = 256;

/// A value that is too long to be written.
struct TooLong;

/// Names of variables by sort, in the order in which they were first written.
#[derive(Clone, Default)]
struct Names {
    types: Vec<Var>,
    fields: Vec<Var>,
    rows: Vec<Var>,
}

impl Names {
    fn name(letter: char, names: &mut Vec<Var>, var: Var) -> String {
        let known = names.iter().position(|other| *other == var);
        let number = known.unwrap_or_else(|| {
            names.push(var);
            names.len() - 1
        });
        format!("{letter}{number}")
    }
}

/// The text of one value, word by word.
struct Speller<'a> {
    state: &'a State,
    names: Names,
    text: String,
    words: usize,
}

/// The values one space apart, then the classes of the variables in them.
pub fn types(state: &State, codes: &[Code]) -> String {
    let mut names = Names::default();
    let mut parts = Vec::new();
    for code in codes {
        let mut speller = Speller {
            state,
            names: names.clone(),
            text: String::new(),
            words: 0,
        };
        let var = state.codes[*code];
        let spelled = match state.sorts[*code] {
            Sort::Type => speller.type_of(var),
            Sort::Field => speller.field(var),
            Sort::Row(_) => speller.row("row", var),
        };
        match spelled {
            Ok(()) => {
                names = speller.names;
                parts.push(speller.text);
            }
            Err(TooLong) => parts.push("...".to_string()),
        }
    }
    parts.extend(classes(state, &names));
    parts.join(" ")
}

fn classes(state: &State, names: &Names) -> Vec<String> {
    let mut all = Vec::new();
    for (number, var) in names.types.iter().enumerate() {
        let held = state
            .table
            .iter()
            .find(|entry| state.codes[entry.code] == *var);
        for class in held.iter().flat_map(|entry| &entry.classes) {
            all.push(format!("({} a{number})", NAMES[*class]));
        }
    }
    all
}

impl Speller<'_> {
    fn word(&mut self, word: &str) -> Result<(), TooLong> {
        self.words += 1;
        if self.words > MOST_WORDS {
            return Err(TooLong);
        }
        if !self.text.is_empty() && !self.text.ends_with('(') {
            self.text.push(' ');
        }
        self.text.push_str(word);
        Ok(())
    }

    fn open(&mut self, head: &str) -> Result<(), TooLong> {
        if !self.text.is_empty() {
            self.text.push(' ');
        }
        self.text.push('(');
        self.word(head)
    }

    fn close(&mut self) -> Result<(), TooLong> {
        self.text.push(')');
        Ok(())
    }

    fn type_of(&mut self, var: Var) -> Result<(), TooLong> {
        match self.state.terms.get(var) {
            Term::Built("record", children) => self.row("record", children[0]),
            Term::Built(head, children) if children.is_empty() => self.word(head),
            Term::Built(head, children) => {
                self.open(head)?;
                children.iter().try_for_each(|child| self.type_of(*child))?;
                self.close()
            }
            _ => {
                let name = Names::name('a', &mut self.names.types, var);
                self.word(&name)
            }
        }
    }

    fn field(&mut self, var: Var) -> Result<(), TooLong> {
        match self.state.terms.get(var) {
            Term::Built("has", children) => self.type_of(children[0]),
            Term::Built(..) => self.word("-"),
            _ => {
                let name = Names::name('f', &mut self.names.fields, var);
                self.word(&name)
            }
        }
    }

    fn row(&mut self, head: &str, var: Var) -> Result<(), TooLong> {
        let flat = self.state.terms.flat(var);
        let is_open = *self.state.terms.get(flat.tail) == Term::Open;
        self.open(head)?;
        for (label, field) in flat.fields {
            let is_absent = matches!(self.state.terms.get(field.var), Term::Built("absent", _));
            if is_open || !is_absent {
                self.open(&label.to_string())?;
                self.field(field.var)?;
                self.close()?;
            }
        }
        if is_open {
            let name = Names::name('r', &mut self.names.rows, flat.tail);
            self.word(&name)?;
        }
        self.close()
    }
}

/// What kind of view a look answers.
pub fn view(term: &Term) -> String {
    let head = match term {
        Term::Open => "open",
        Term::Built(head, _) => head,
        Term::Empty => "empty",
        Term::Row(..) => "row",
    };
    head.to_string()
}
