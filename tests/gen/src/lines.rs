//! Lines that are no scripts: refused piles and sheets, unknown lines, lines
//! that are passed over.

use crate::rng::Rng;
use crate::setting::distinct_labels;
use crate::words;

const BAD_PILES: [&str; 30] = [
    "pile rows 15",
    "pile trees 0",
    "pile classrows 4097",
    "pile classtrees 00015",
    "pile rows 9999",
    "pile rows 10000",
    "pile trees 65552",
    "pile rows 4294967312",
    "pile rows 18446744073709551632",
    "pile rows 340282366920938463463374607431768211472",
    "pile rows 000000000000000000000000000",
    "pile",
    "pile ",
    "pile rows",
    "pile rows ",
    "pile rows  16",
    "pile  rows 16",
    "pile rows 16 ",
    "pile rows 16 16",
    "pile rows -16",
    "pile rows +16",
    "pile rows 16x",
    "pile rows 1.6",
    "pile rows 0x10",
    "pile tree 16",
    "pile Rows 16",
    "pile classes 16",
    "pile 16 rows",
    "piles rows 16",
    "pile rows\t16",
];

const UNKNOWN: [&str; 18] = [
    "reads 1",
    "Read 1",
    "READ",
    "read(1)",
    " read 1",
    "sheets",
    "Sheet a",
    " sheet a",
    "sheet\t",
    " # read 1",
    "read\t1",
    "check 1",
    "define x 1",
    "show x",
    "back",
    "1",
    "(fun x x)",
    "\t",
];

const PASSED_OVER: [&str; 7] = ["", " ", "     ", "#", "# read 1", "#read 1", "#\t\u{e9}"];

pub fn bad_pile(rng: &mut Rng) -> Vec<u8> {
    match rng.below(8) {
        0 => format!("pile rows {}", "9".repeat(rng.between(4, 1000))).into_bytes(),
        _ => rng.pick(&BAD_PILES).as_bytes().to_vec(),
    }
}

/// A sheet that is refused, for one reason or two.
pub fn bad_sheet(rng: &mut Rng) -> Vec<u8> {
    let count = *rng.pick(&[&1, &2, &3, &24, &25]);
    let mut labels = distinct_labels(rng, count);
    if count < 25 || rng.once_in(3) {
        spoil(rng, &mut labels);
    }
    format!("sheet {}", labels.join(" ")).into_bytes()
}

fn spoil(rng: &mut Rng, labels: &mut Vec<String>) {
    let at = rng.below(labels.len());
    let end = labels.len();
    match rng.below(5) {
        0 => labels.push(labels[at].clone()),
        1 => labels[at] = rng.pick(&words::RESERVED).to_string(),
        2 => labels[at] = rng.pick(&words::BAD).to_string(),
        3 => {
            labels[at] = rng
                .pick(&["(", ")", "a(", "a\tb", "a\r", "\u{e9}", "1", "0.5"])
                .to_string()
        }
        _ => labels.insert(*rng.pick(&[&0, &at, &end]), String::new()),
    }
}

fn unknown(rng: &mut Rng) -> Vec<u8> {
    match rng.below(4) {
        0 => (0..rng.between(1, 20))
            .map(|_| rng.byte(128, 255))
            .collect(),
        1 => vec![rng.byte(11, 31); rng.between(1, 3)],
        _ => rng.pick(&UNKNOWN).as_bytes().to_vec(),
    }
}

/// A line that changes nothing.
pub fn idle(rng: &mut Rng) -> Vec<u8> {
    if rng.once_in(2) {
        unknown(rng)
    } else {
        rng.pick(&PASSED_OVER).as_bytes().to_vec()
    }
}
