//! Scripts that are counted through and not drawn: every kind of word in every
//! place of every form, every end of text, every byte, short words, range ends.

use std::slice::from_ref;

use crate::pieces::{piece, render_canonical, Piece, Role};
use crate::samples::samples;
use crate::setting::Setting;
use crate::words::RESERVED;

const PILES: [&str; 4] = ["trees", "rows", "classtrees", "classrows"];
const SHEET: [&str; 3] = ["la", "x", "labeltwelve0"];

const OTHER_WORDS: [&str; 26] = [
    "(",
    ")",
    "x",
    "q",
    "la",
    "off",
    "not",
    "hold",
    "abcdefghijkl",
    "abcdefghijklm",
    "labeltwelve0",
    "0",
    "-32768",
    "32768",
    "-32769",
    "1.5",
    "-3276.8",
    "3276.8",
    "-3276.9",
    "1.",
    ".5",
    "-",
    "A",
    "9a",
    "[",
    "xx-",
];

const DEEPEST: usize = 32;
const MOST_FORMS: usize = 512;

pub fn input() -> Vec<Vec<u8>> {
    let mut all = Vec::new();
    for pile in PILES {
        all.extend(Setting::fixed(pile, &SHEET).lines());
        all.extend(words_in_places().iter().map(|script| read(script)));
        all.extend(limits().iter().map(|script| read(script)));
    }
    all.extend(Setting::fixed("classrows", &[]).lines());
    all.extend(every_byte().iter().map(|script| read(script)));
    all.extend(short_words().iter().map(|script| read(script)));
    all.extend(numbers().iter().map(|script| read(script)));
    all
}

fn read(script: &[u8]) -> Vec<u8> {
    [b"read ", script].concat()
}

fn all_words() -> impl Iterator<Item = Piece> {
    RESERVED
        .iter()
        .chain(&OTHER_WORDS)
        .map(|word| piece(Role::Leaf, word))
}

/// The pieces with those from `from` to before `to` replaced by another.
fn replaced(pieces: &[Piece], from: usize, to: usize, other: &[Piece]) -> Vec<Piece> {
    [&pieces[..from], other, &pieces[to..]].concat()
}

/// Every sample with each word in front of, in the place of and behind each
/// piece, with each piece left out, and cut in front of each piece.
fn words_in_places() -> Vec<Vec<u8>> {
    let mut scripts = Vec::new();
    for sample in samples() {
        for at in 0..=sample.len() {
            for word in all_words() {
                scripts.push(replaced(&sample, at, at, from_ref(&word)));
                if at < sample.len() {
                    scripts.push(replaced(&sample, at, at + 1, &[word]));
                }
            }
            if at < sample.len() {
                scripts.push(replaced(&sample, at, at + 1, &[]));
                scripts.push(sample[..at].to_vec());
            }
        }
        scripts.push(sample);
    }
    let mut texts: Vec<Vec<u8>> = scripts
        .iter()
        .map(|script| render_canonical(script))
        .collect();
    texts.extend(samples().iter().flat_map(|sample| cut_with_spaces(sample)));
    texts
}

/// A sample cut at every byte, with two spaces behind.
fn cut_with_spaces(sample: &[Piece]) -> Vec<Vec<u8>> {
    let text = render_canonical(sample);
    (0..=text.len())
        .map(|at| [&text[..at], b"  "].concat())
        .collect()
}

/// Every sample where brackets are 30 to 32 deep already, or 510 to 512 forms
/// have begun, or both, whole and with a bracket, a word, a closing bracket or
/// the end in each place.
fn limits() -> Vec<Vec<u8>> {
    let mut scripts = Vec::new();
    for sample in samples() {
        let near: Vec<Vec<Piece>> = (0..sample.len())
            .flat_map(|at| {
                let other = |text: &str| replaced(&sample, at, at + 1, &[piece(Role::Leaf, text)]);
                [
                    other("("),
                    other(")"),
                    other("-32769"),
                    other("A"),
                    sample[..at].to_vec(),
                ]
            })
            .chain([sample.clone()])
            .collect();
        for pieces in near {
            for depth in DEEPEST - 2..=DEEPEST {
                scripts.push(nested(depth, depth, &pieces));
                scripts.push(nested(depth, MOST_FORMS, &pieces));
                scripts.push(nested(depth, MOST_FORMS - 1, &pieces));
            }
            for forms in MOST_FORMS - 2..=MOST_FORMS {
                scripts.push(nested(12, forms, &pieces));
            }
        }
    }
    scripts
}

/// A script in which `depth` brackets are open and `forms` forms have begun in
/// front of the given pieces.
fn nested(depth: usize, forms: usize, inner: &[Piece]) -> Vec<u8> {
    let outermost = match forms - depth {
        0 => "(fun x ".to_string(),
        missing => format!("(call {} ", balanced(missing)),
    };
    let others = "(fun x ".repeat(depth - 1);
    let closing = ")".repeat(depth);
    [
        outermost.as_bytes(),
        others.as_bytes(),
        &render_canonical(inner),
        closing.as_bytes(),
    ]
    .concat()
}

/// A short script of exactly so many forms.
fn balanced(forms: usize) -> String {
    match forms {
        1 => "1".to_string(),
        2 => "(fun x x)".to_string(),
        3 => "(call 1 2)".to_string(),
        _ => {
            let first = (forms - 1) / 3;
            let second = (forms - 1 - first) / 2;
            let third = forms - 1 - first - second;
            format!(
                "(if {} {} {})",
                balanced(first),
                balanced(second),
                balanced(third)
            )
        }
    }
}

fn every_byte() -> Vec<Vec<u8>> {
    let bytes = (0..=255_u8).filter(|byte| *byte != b'\n');
    bytes
        .flat_map(|byte| {
            let places: [(&[u8], &[u8]); 5] = [
                (b"", b""),
                (b"(fun x", b"x)"),
                (b"(fun x ", b")"),
                (b"(fun ", b" 1)"),
                (b"1 ", b""),
            ];
            places.map(|(before, after)| [before, &[byte], after].concat())
        })
        .collect()
}

/// All words of one to five bytes out of a few.
fn short_words() -> Vec<Vec<u8>> {
    let mut words: Vec<Vec<u8>> = vec![vec![]];
    let mut longest = words.clone();
    for _ in 0..5 {
        longest = longest
            .iter()
            .flat_map(|word| {
                b"-.09a"
                    .iter()
                    .map(|byte| [word.as_slice(), &[*byte]].concat())
            })
            .collect();
        words.extend(longest.clone());
    }
    words
}

/// Numbers around each end of the ranges, with signs, zeros and points.
fn numbers() -> Vec<Vec<u8>> {
    let mut all = Vec::new();
    for middle in [5, 3276, 6553, 32767, 65536, 327675, 4_294_967_296_u64] {
        for size in middle - 5..=middle + 5 {
            for front in ["", "-", "0", "-0", "000", "-00000000000000000000"] {
                all.push(format!("{front}{size}"));
                all.extend((0..10).map(|tenth| format!("{front}{size}.{tenth}")));
            }
        }
    }
    all.into_iter().map(String::into_bytes).collect()
}
