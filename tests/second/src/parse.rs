//! Reads a script: size, bytes, then recursive descent over the tokens.

use crate::fault::Fault;
use crate::form::{Form, Part};
use crate::rules::{judge, Context, Place};
use crate::scope::Scope;
use crate::tokens::{tokenise, Kind, Token};
use crate::words::{self, Numeral};

const LONGEST_SCRIPT: usize = 4096;
const FIRST_BYTE: u8 = 32;
const LAST_BYTE: u8 = 126;

/// What the reader is told by the pile and the sheet.
pub struct Known<'a> {
    pub records: bool,
    pub names: &'a [&'a str],
    pub sheet: &'a [String],
}

pub fn read(script: &[u8], known: &Known) -> Result<Form, Fault> {
    if script.len() > LONGEST_SCRIPT {
        return Err(Fault::reading(3, 0, 0));
    }
    if let Some(at) = script
        .iter()
        .position(|byte| !(FIRST_BYTE..=LAST_BYTE).contains(byte))
    {
        return Err(Fault::reading(4, at, 1));
    }
    let text: String = script.iter().copied().map(char::from).collect();
    let tokens = tokenise(&text);
    let scope = Scope::BuiltIn(known.names);
    let mut reader = Reader {
        known,
        rest: tokens.iter(),
        depth: 0,
        forms: 0,
    };
    let form = reader.form(&scope)?;
    reader.take(Place::End, &scope)?;
    Ok(form)
}

struct Reader<'a> {
    known: &'a Known<'a>,
    rest: std::slice::Iter<'a, Token>,
    depth: usize,
    forms: usize,
}

impl<'a> Reader<'a> {
    /// The next token, if it may stand in that place.
    fn take(&mut self, place: Place, scope: &Scope) -> Result<&'a Token, Fault> {
        let token = self.rest.next().expect("the end is taken last, and once");
        let context = Context {
            place,
            depth: self.depth,
            forms: self.forms,
            records_known: self.known.records,
            sheet: self.known.sheet,
            scope,
        };
        judge(token, &context)?;
        Ok(token)
    }

    fn take_word(&mut self, place: Place, scope: &Scope) -> Result<&'a str, Fault> {
        let token = self.take(place, scope)?;
        Ok(token.word().expect("the rules let only a word stand here"))
    }

    fn form(&mut self, scope: &Scope) -> Result<Form, Fault> {
        let first = self.take(Place::Form, scope)?;
        self.forms += 1;
        match &first.kind {
            Kind::Word(word) => Ok(single(word)),
            _ => self.bracket(scope),
        }
    }

    /// A form in brackets, behind its opening one.
    fn bracket(&mut self, scope: &Scope) -> Result<Form, Fault> {
        self.depth += 1;
        let head = self.take_word(Place::Head, scope)?;
        let parts = self.parts(head, scope)?;
        self.take(Place::Closing, scope)?;
        self.depth -= 1;
        Ok(Form::Bracket(head.to_string(), parts))
    }

    fn parts(&mut self, head: &str, scope: &Scope) -> Result<Vec<Part>, Fault> {
        match head {
            "fun" | "rec" => {
                let name = self.take_word(Place::Name, scope)?;
                let body = self.part(&scope.with(name))?;
                Ok(vec![word(name), body])
            }
            "let" => {
                let name = self.take_word(Place::Name, scope)?;
                let value = self.part(scope)?;
                let body = self.part(&scope.with(name))?;
                Ok(vec![word(name), value, body])
            }
            "call" => Ok(vec![self.part(scope)?, self.part(scope)?]),
            "if" => Ok(vec![
                self.part(scope)?,
                self.part(scope)?,
                self.part(scope)?,
            ]),
            "with" => Ok(vec![
                self.part(scope)?,
                self.label(scope)?,
                self.part(scope)?,
            ]),
            "get" | "drop" => Ok(vec![self.part(scope)?, self.label(scope)?]),
            _ => Ok(vec![]),
        }
    }

    fn part(&mut self, scope: &Scope) -> Result<Part, Fault> {
        self.form(scope).map(Part::Form)
    }

    fn label(&mut self, scope: &Scope) -> Result<Part, Fault> {
        self.take_word(Place::Label, scope).map(word)
    }
}

fn word(text: &str) -> Part {
    Part::Word(text.to_string())
}

/// A form of one word, which the rules have let stand.
fn single(word: &str) -> Form {
    match words::numeral(word) {
        Numeral::InRange(number) => Form::Number(number),
        _ if words::is_flag(word) => Form::Flag(word.to_string()),
        _ => Form::Name(word.to_string()),
    }
}
