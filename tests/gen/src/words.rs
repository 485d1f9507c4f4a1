//! Words for scripts: good ones, bad ones and numbers.

use crate::rng::Rng;

pub const RESERVED: [&str; 11] = [
    "fun", "call", "let", "rec", "if", "record", "with", "get", "drop", "yes", "no",
];
pub const BUILT_IN: [&str; 3] = ["not", "nil", "cons"];
pub const BUILT_IN_CLASSED: [&str; 5] = ["add", "neg", "less", "equal", "hold"];

/// Names to bind: some are also labels or built in, some are close to each other.
pub const BINDERS: [&str; 14] = [
    "x",
    "y",
    "f",
    "z9",
    "la",
    "not",
    "add",
    "cons",
    "abcdefghijkl",
    "abcdefghijkm",
    "a00000000000",
    "func",
    "ye",
    "recor",
];

/// Names that are neither bound nor built in.
pub const UNBOUND: [&str; 8] = [
    "q",
    "q0",
    "qqqqqqqqqqqq",
    "abcdefghijk",
    "no0",
    "yess",
    "nill",
    "addd",
];

/// Labels for sheets.
pub const LABELS: [&str; 30] = [
    "la",
    "lb",
    "lc",
    "blade",
    "tilt",
    "winch",
    "x",
    "y",
    "not",
    "add",
    "nil",
    "l0",
    "l1",
    "l2",
    "l3",
    "l4",
    "l5",
    "l6",
    "l7",
    "l8",
    "l9",
    "labeltwelve0",
    "labeltwelve1",
    "z",
    "a",
    "b",
    "c",
    "func",
    "gets",
    "z99999999999",
];

/// Labels on no sheet.
pub const OFF_SHEET: [&str; 6] = ["off", "labeltwelve", "labeltwelve2", "lz", "blad", "ti"];

/// Words that are no words of the language in any place.
pub const BAD: [&str; 34] = [
    "abcdefghijklm",
    "qqqqqqqqqqqqq",
    "a000000000000",
    "abcdefghijklmnopqrstuvwxyz",
    "A",
    "Fun",
    "YES",
    "xY",
    "a-b",
    "a.b",
    "a_b",
    "9a",
    "1a",
    "-",
    "--1",
    "-x",
    "+1",
    "1.",
    ".5",
    "-.5",
    "1.25",
    "1..2",
    "1.x",
    "1-",
    "1.-5",
    "[",
    "]",
    "[x]",
    "{fun",
    "'x",
    "\"",
    ",",
    "#",
    "~",
];

pub const IN_RANGE: [&str; 32] = [
    "0",
    "1",
    "2",
    "9",
    "10",
    "42",
    "-1",
    "-0",
    "00",
    "-00",
    "0000000",
    "32766",
    "32767",
    "-32767",
    "-32768",
    "000032767",
    "-000032768",
    "0.0",
    "-0.0",
    "0.4",
    "-0.4",
    "1.5",
    "-1.5",
    "3276.6",
    "3276.7",
    "-3276.7",
    "-3276.8",
    "003276.7",
    "-00000003276.8",
    "00.5",
    "-000.0",
    "327.6",
];

/// Out of range; many are in range again if they are cut to 16, 32, 64 or 128 bits.
pub const OUT_OF_RANGE: [&str; 40] = [
    "32768",
    "-32769",
    "32769",
    "40000",
    "-40000",
    "65535",
    "65536",
    "65537",
    "-65536",
    "99999",
    "100000",
    "327670",
    "-327680",
    "032768",
    "-0032769",
    "3276.8",
    "3276.9",
    "-3276.9",
    "-3277.0",
    "3277.0",
    "03276.8",
    "-003276.9",
    "32767.0",
    "-32768.0",
    "6553.6",
    "6553.7",
    "-6553.6",
    "10000.0",
    "2147483647",
    "2147483648",
    "4294967296",
    "4294967297",
    "429496729.6",
    "429496729.7",
    "18446744073709551615",
    "18446744073709551616",
    "18446744073709551617",
    "1844674407370955161.7",
    "340282366920938463463374607431768211457",
    "-340282366920938463463374607431768211456",
];

/// A number near an end of the range, in or out of it, at times with leading zeros.
pub fn number_near_end(rng: &mut Rng) -> String {
    let end = rng.pick(&[&0_usize, &32768, &3276, &65536, &327680]);
    let size = (end + rng.below(7)).saturating_sub(3);
    let sign = rng.pick(&["", "-"]);
    let zeros = "0".repeat(rng.pick(&[&0, &0, &0, &1, &3, &20]).to_owned());
    let point = match rng.below(3) {
        0 => format!(".{}", rng.below(10)),
        _ => String::new(),
    };
    format!("{sign}{zeros}{size}{point}")
}

/// A number of about `length` bytes: its value small, or its digits random.
pub fn long_number(rng: &mut Rng, length: usize) -> String {
    let sign = rng.pick(&["", "-"]);
    let point = rng.pick(&["", "", ".7", ".8", ".0", "."]);
    let digits: String = match rng.below(4) {
        0 => "0".repeat(length),
        1 => format!(
            "{}{}",
            "0".repeat(length),
            rng.pick(&["5", "32767", "32768", "3276", "32769"])
        ),
        2 => (0..length)
            .map(|_| char::from(rng.byte(b'0', b'9')))
            .collect(),
        _ => format!("1{}", "0".repeat(length.saturating_sub(1))),
    };
    format!("{sign}{digits}{point}")
}

/// Any word: mostly of the language, at times not.
pub fn any_word(rng: &mut Rng, labels: &[String]) -> String {
    let fixed: &[&str] = match rng.below(11) {
        0..=2 => &RESERVED,
        3 => &BUILT_IN,
        4 => &BUILT_IN_CLASSED,
        5 => &BINDERS,
        6 => &["q", "off", "lz", "abcdefghijk", "yess"],
        7 => &BAD,
        8 if rng.once_in(2) => &IN_RANGE,
        8 => &OUT_OF_RANGE,
        9 => return number_near_end(rng),
        _ if labels.is_empty() => &LABELS,
        _ => return rng.pick_one(labels).clone(),
    };
    rng.pick(fixed).to_string()
}
