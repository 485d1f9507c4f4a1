//! The words of the language: reserved words, names (labels look the same), numbers.

use std::fmt;
use std::ops::RangeInclusive;

const RESERVED: [&str; 11] = [
    "fun", "call", "let", "rec", "if", "record", "with", "get", "drop", "yes", "no",
];
const RECORD_HEADS: [&str; 4] = ["record", "with", "get", "drop"];
const PLAIN_HEADS: [&str; 5] = ["fun", "call", "let", "rec", "if"];

const LONGEST_NAME: usize = 12;

/// Whole numbers count ones and tenths count tenths; both have the same bounds.
const RANGE: RangeInclusive<i128> = -32768..=32767;

fn is_one_of(word: &str, list: &[&str]) -> bool {
    list.contains(&word)
}

pub fn is_record_head(word: &str) -> bool {
    is_one_of(word, &RECORD_HEADS)
}

pub fn is_head(word: &str) -> bool {
    is_one_of(word, &PLAIN_HEADS) || is_record_head(word)
}

pub fn is_flag(word: &str) -> bool {
    word == "yes" || word == "no"
}

/// Whether the word may be a name or a label.
pub fn is_name(word: &str) -> bool {
    word.starts_with(|c: char| c.is_ascii_lowercase())
        && word
            .chars()
            .all(|c| c.is_ascii_lowercase() || c.is_ascii_digit())
        && word.len() <= LONGEST_NAME
        && !is_one_of(word, &RESERVED)
}

/// Whether the text is one or more decimal digits.
pub fn is_digits(text: &str) -> bool {
    !text.is_empty() && text.chars().all(|c| c.is_ascii_digit())
}

/// The value of decimal digits, or nothing if it has more than `most` digits
/// once leading zeros are gone.
pub fn value_of_digits(digits: &str, most: usize) -> Option<i128> {
    let trimmed = digits.trim_start_matches('0');
    if trimmed.len() > most {
        return None;
    }
    Some(
        trimmed
            .chars()
            .fold(0, |sum, c| sum * 10 + i128::from(c as u32 - '0' as u32)),
    )
}

#[derive(Clone, Copy, Debug, PartialEq, Eq)]
pub enum Number {
    Whole(i128),
    Tenths(i128),
}

impl fmt::Display for Number {
    fn fmt(&self, f: &mut fmt::Formatter<'_>) -> fmt::Result {
        match *self {
            Number::Whole(ones) => write!(f, "{ones}"),
            Number::Tenths(tenths) => {
                let sign = if tenths < 0 { "-" } else { "" };
                write!(f, "{sign}{}.{}", tenths.abs() / 10, tenths.abs() % 10)
            }
        }
    }
}

/// What a word says as a number.
#[derive(Clone, Copy, Debug, PartialEq, Eq)]
pub enum Numeral {
    InRange(Number),
    OutOfRange,
    NotANumber,
}

pub fn numeral(word: &str) -> Numeral {
    let (negative, size) = match word.strip_prefix('-') {
        Some(rest) => (true, rest),
        None => (false, word),
    };
    match size.split_once('.') {
        None if is_digits(size) => ranged(negative, size, Number::Whole),
        Some((ones, tenth)) if is_digits(ones) && is_digits(tenth) && tenth.len() == 1 => {
            ranged(negative, &format!("{ones}{tenth}"), Number::Tenths)
        }
        _ => Numeral::NotANumber,
    }
}

fn ranged(negative: bool, digits: &str, kind: fn(i128) -> Number) -> Numeral {
    let size = value_of_digits(digits, 6);
    let value = size.map(|size| if negative { -size } else { size });
    match value.filter(|value| RANGE.contains(value)) {
        Some(value) => Numeral::InRange(kind(value)),
        None => Numeral::OutOfRange,
    }
}
