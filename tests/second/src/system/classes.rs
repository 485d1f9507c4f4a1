//! The four classes, and the table of the open codes that are held to some.

use std::collections::BTreeSet;

use super::request::{Code, Refusal};
use super::system::State;
use super::terms::{Term, Var};

pub const NAMES: [&str; 4] = ["num", "ord", "eq", "steady"];
const NUM: usize = 0;
const ORD: usize = 1;
const EQ: usize = 2;
const STEADY: usize = 3;

const MOST_ENTRIES: usize = 128;

/// An open code, by the first number that it has, with its classes.
#[derive(Clone, Debug)]
pub struct Entry {
    pub code: Code,
    pub classes: BTreeSet<usize>,
}

/// Where following a class through lists ends.
enum End {
    Open(Var),
    Inside,
    Outside,
}

fn has_member(classes: &BTreeSet<usize>) -> bool {
    let numbers = classes.contains(&NUM) || classes.contains(&ORD);
    !(numbers && classes.contains(&STEADY))
}

fn follow(state: &State, class: usize, var: Var) -> End {
    let Term::Built(head, children) = state.terms.get(var) else {
        return End::Open(var);
    };
    let inside = match *head {
        "list" if class != NUM => return follow(state, class, children[0]),
        "whole" | "tenth" => class == NUM || class == ORD || class == EQ,
        "flag" => class == EQ || class == STEADY,
        _ => false,
    };
    if inside {
        End::Inside
    } else {
        End::Outside
    }
}

/// Holds a variable to a class, in that table.
pub fn hold(state: &State, table: &mut Vec<Entry>, class: usize, var: Var) -> Result<(), Refusal> {
    let open = match follow(state, class, var) {
        End::Inside => return Ok(()),
        End::Outside => return Err(Refusal::of_classes(14)),
        End::Open(open) => open,
    };
    let code = state.first_code(open);
    if let Some(entry) = table.iter_mut().find(|entry| entry.code == code) {
        entry.classes.insert(class);
        return match has_member(&entry.classes) {
            true => Ok(()),
            false => Err(Refusal::of_classes(15)),
        };
    }
    if table.len() == MOST_ENTRIES {
        return Err(Refusal::of_classes(17));
    }
    table.push(Entry {
        code,
        classes: BTreeSet::from([class]),
    });
    Ok(())
}

/// The table after an equate: every entry again, the oldest first.
pub fn hold_again(state: &State, old: &[Entry]) -> Result<Vec<Entry>, Refusal> {
    let mut table = Vec::new();
    for entry in old {
        for class in &entry.classes {
            hold(state, &mut table, *class, state.codes[entry.code])?;
        }
    }
    Ok(table)
}
