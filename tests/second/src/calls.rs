//! Answers the lines of an input, one after another.

use crate::fault::Fault;
use crate::parse::{read, Known};
use crate::system::{read_line, Kind, System};
use crate::words;

const CAPACITIES: std::ops::RangeInclusive<i128> = 16..=4096;
const MOST_LABELS: usize = 24;
const NO_CELLS: &str = "fault 16 4";

const BUILT_IN: [&str; 8] = ["not", "nil", "cons", "add", "neg", "less", "equal", "hold"];
const BUILT_IN_WITHOUT_CLASSES: usize = 3;

#[derive(Clone, Copy, PartialEq, Eq)]
pub enum Detail {
    /// `ok FORMS DEPTH`
    Plain,
    /// `ok FORMS DEPTH FORM`
    WithForm,
}

struct Pile {
    records: bool,
    classes: bool,
}

impl Pile {
    fn named(name: &str) -> Option<Pile> {
        match name {
            "trees" => Some(Pile {
                records: false,
                classes: false,
            }),
            "rows" => Some(Pile {
                records: true,
                classes: false,
            }),
            "classtrees" => Some(Pile {
                records: false,
                classes: true,
            }),
            "classrows" => Some(Pile {
                records: true,
                classes: true,
            }),
            _ => None,
        }
    }

    fn kind(&self) -> Kind {
        Kind {
            rows: self.records,
            classes: self.classes,
        }
    }

    fn names(&self) -> &'static [&'static str] {
        if self.classes {
            &BUILT_IN
        } else {
            &BUILT_IN[..BUILT_IN_WITHOUT_CLASSES]
        }
    }
}

pub struct Program {
    detail: Detail,
    pile: Option<Pile>,
    sheet: Option<Vec<String>>,
    /// The pile's system, which is asked while no sheet stands.
    system: Option<System>,
    /// What the program under test answered, where its limits are followed.
    given: Option<Vec<String>>,
    answered: usize,
}

impl Program {
    pub fn new(detail: Detail, given: Option<Vec<String>>) -> Program {
        Program {
            detail,
            pile: None,
            sheet: None,
            system: None,
            given,
            answered: 0,
        }
    }

    /// The answer to a line, or nothing if the line is passed over.
    pub fn answer(&mut self, line: &[u8], number: usize) -> Option<String> {
        if line.iter().all(|byte| *byte == b' ') || line.starts_with(b"#") {
            return None;
        }
        let answer = match split_call(line) {
            (b"pile", Some(rest)) => self.pile(rest),
            (b"sheet", rest) => Some(self.sheet(rest.unwrap_or_default())),
            (b"read", rest) => Some(self.read(rest.unwrap_or_default())),
            _ => self.ask(line),
        };
        self.answered += 1;
        Some(answer.unwrap_or_else(|| format!("unknown {number}")))
    }

    /// Nothing if the line is no pile line.
    fn pile(&mut self, rest: &[u8]) -> Option<String> {
        let rest = std::str::from_utf8(rest).ok()?;
        let (name, capacity) = rest.split_once(' ')?;
        let pile = Pile::named(name)?;
        if !words::is_digits(capacity) {
            return None;
        }
        let size = words::value_of_digits(capacity, 4);
        let fits = size.is_some_and(|size| CAPACITIES.contains(&size));
        self.sheet = None;
        let size = size.unwrap_or_default() as usize;
        self.system = fits.then(|| System::new(pile.kind(), size));
        self.pile = fits.then_some(pile);
        Some(if fits {
            "ok".to_string()
        } else {
            Fault::bad_capacity().to_string()
        })
    }

    fn sheet(&mut self, rest: &[u8]) -> String {
        if self.pile.is_none() {
            return "none".to_string();
        }
        self.sheet = labels(rest);
        match self.sheet {
            Some(_) => "ok".to_string(),
            None => Fault::bad_sheet().to_string(),
        }
    }

    /// Nothing if the line asks nothing.
    fn ask(&mut self, line: &[u8]) -> Option<String> {
        let request = read_line(line)?;
        let given = self.given.as_ref();
        let said = given.map(|all| all.get(self.answered).is_some_and(|one| one == NO_CELLS));
        let answer = match &mut self.system {
            Some(system) if self.sheet.is_none() => system.answer(&request, said),
            _ => "none".to_string(),
        };
        Some(answer)
    }

    fn read(&self, script: &[u8]) -> String {
        let (Some(pile), Some(sheet)) = (&self.pile, &self.sheet) else {
            return "none".to_string();
        };
        let known = Known {
            records: pile.records,
            names: pile.names(),
            sheet,
        };
        match read(script, &known) {
            Err(fault) => fault.to_string(),
            Ok(form) if self.detail == Detail::Plain => {
                format!("ok {} {}", form.count(), form.depth())
            }
            Ok(form) => format!("ok {} {} {form}", form.count(), form.depth()),
        }
    }
}

/// The first word of a line, and what stands behind the space after it.
fn split_call(line: &[u8]) -> (&[u8], Option<&[u8]>) {
    match line.iter().position(|byte| *byte == b' ') {
        Some(at) => (&line[..at], Some(&line[at + 1..])),
        None => (line, None),
    }
}

/// The labels of a sheet, or nothing if the sheet is refused.
fn labels(rest: &[u8]) -> Option<Vec<String>> {
    if rest.is_empty() {
        return Some(Vec::new());
    }
    let text = std::str::from_utf8(rest).ok()?;
    let labels: Vec<String> = text.split(' ').map(str::to_string).collect();
    let mut distinct = labels.clone();
    distinct.sort();
    distinct.dedup();
    let good = labels.len() <= MOST_LABELS
        && distinct.len() == labels.len()
        && labels.iter().all(|label| words::is_name(label));
    good.then_some(labels)
}
