//! Lines that ask a system something.

use super::request::{Code, Request};
use super::sorts::{Head, Labels, Sort};
use crate::words;

/// What the line asks, or nothing if it is no such line.
pub fn read_line(line: &[u8]) -> Option<Request> {
    let text = std::str::from_utf8(line).ok()?;
    let all: Vec<&str> = text.split(' ').collect();
    match all[0] {
        "fresh" => fresh(&all[1..]),
        "build" => build(&all[1..]),
        "equate" => pair(&all[1..]).map(|(a, b)| Request::Equate(a, b)),
        "demand" => demand(&all[1..]),
        "look" => single(&all[1..]).map(Request::Look),
        "tally" => alone(&all, Request::Tally),
        "mark" => alone(&all, Request::Mark),
        "keep" => alone(&all, Request::Keep),
        "back" => alone(&all, Request::Back),
        "type" => types(&all[1..]),
        _ => None,
    }
}

fn alone(all: &[&str], request: Request) -> Option<Request> {
    (all.len() == 1).then_some(request)
}

fn fresh(words: &[&str]) -> Option<Request> {
    let sort = match words {
        ["type"] => Sort::Type,
        ["field"] => Sort::Field,
        ["row", lacked @ ..] => Sort::Row(labels(lacked)?),
        _ => return None,
    };
    Some(Request::Fresh(sort))
}

fn build(words: &[&str]) -> Option<Request> {
    let (head, children) = match words {
        ["whole"] => (Head::Whole, vec![]),
        ["tenth"] => (Head::Tenth, vec![]),
        ["flag"] => (Head::Flag, vec![]),
        ["to", a, b] => (Head::To, vec![code(a)?, code(b)?]),
        ["list", a] => (Head::List, vec![code(a)?]),
        ["record", a] => (Head::Record, vec![code(a)?]),
        ["absent"] => (Head::Absent, vec![]),
        ["has", a] => (Head::Has, vec![code(a)?]),
        ["empty", lacked @ ..] => (Head::Empty(labels(lacked)?), vec![]),
        ["row", label, a, b, lacked @ ..] => {
            let head = Head::Row(number(label)?, labels(lacked)?);
            (head, vec![code(a)?, code(b)?])
        }
        _ => return None,
    };
    Some(Request::Build(head, children))
}

fn demand(words: &[&str]) -> Option<Request> {
    let [class, a] = words else { return None };
    Some(Request::Demand(number(class)?, code(a)?))
}

fn types(words: &[&str]) -> Option<Request> {
    if words.is_empty() {
        return None;
    }
    let codes: Option<Vec<Code>> = words.iter().map(|word| code(word)).collect();
    codes.map(Request::Type)
}

fn single(words: &[&str]) -> Option<Code> {
    let [a] = words else { return None };
    code(a)
}

fn pair(words: &[&str]) -> Option<(Code, Code)> {
    let [a, b] = words else { return None };
    Some((code(a)?, code(b)?))
}

fn labels(words: &[&str]) -> Option<Labels> {
    words.iter().map(|word| number(word)).collect()
}

fn code(word: &str) -> Option<Code> {
    number(word.strip_prefix('#')?).map(|number| number as Code)
}

/// A number; a very large one is told as one that is out of every range.
fn number(word: &str) -> Option<u32> {
    if !words::is_digits(word) {
        return None;
    }
    let value = words::value_of_digits(word, 9);
    Some(value.map_or(u32::MAX, |value| value as u32))
}
