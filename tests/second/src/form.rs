//! Forms as trees, and their canonical text.

use std::fmt;

use crate::words::Number;

#[derive(Clone, Debug, PartialEq, Eq)]
pub enum Form {
    Name(String),
    Number(Number),
    Flag(String),
    /// A bracket: the head word and what stands behind it.
    Bracket(String, Vec<Part>),
}

#[derive(Clone, Debug, PartialEq, Eq)]
pub enum Part {
    /// A bound name or a label.
    Word(String),
    Form(Form),
}

impl Form {
    /// How many forms the tree has, itself included.
    pub fn count(&self) -> usize {
        1 + self.sub_forms().map(Form::count).sum::<usize>()
    }

    /// How deep brackets nest.
    pub fn depth(&self) -> usize {
        match self {
            Form::Bracket(..) => 1 + self.sub_forms().map(Form::depth).max().unwrap_or(0),
            _ => 0,
        }
    }

    fn sub_forms(&self) -> impl Iterator<Item = &Form> {
        let parts: &[Part] = match self {
            Form::Bracket(_, parts) => parts,
            _ => &[],
        };
        parts.iter().filter_map(|part| match part {
            Part::Form(form) => Some(form),
            Part::Word(_) => None,
        })
    }
}

impl fmt::Display for Form {
    fn fmt(&self, f: &mut fmt::Formatter<'_>) -> fmt::Result {
        match self {
            Form::Name(word) | Form::Flag(word) => f.write_str(word),
            Form::Number(number) => number.fmt(f),
            Form::Bracket(head, parts) => {
                write!(f, "({head}")?;
                parts.iter().try_for_each(|part| write!(f, " {part}"))?;
                f.write_str(")")
            }
        }
    }
}

impl fmt::Display for Part {
    fn fmt(&self, f: &mut fmt::Formatter<'_>) -> fmt::Result {
        match self {
            Part::Word(word) => f.write_str(word),
            Part::Form(form) => form.fmt(f),
        }
    }
}
