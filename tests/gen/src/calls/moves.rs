//! Single calls, and short runs of calls that belong together.

use super::list::{List, Sort, LABELS};

pub type Move = fn(&mut List);

fn sort(list: &mut List) -> Sort {
    match list.below(if list.rows { 5 } else { 1 }) {
        3 => Sort::Field,
        4 => Sort::Row(list.some_labels(4)),
        _ => Sort::Type,
    }
}

pub fn fresh(list: &mut List) {
    let sort = sort(list);
    list.fresh(sort);
}

pub fn build(list: &mut List) {
    match list.below(if list.rows { 8 } else { 4 }) {
        0 => drop(leaf(list)),
        1 | 2 => drop(function(list)),
        3 => {
            let a = list.of(Sort::Type);
            list.build(&format!("list #{a}"), Sort::Type);
        }
        4 => {
            let row = list.of(Sort::Row(0));
            list.build(&format!("record #{row}"), Sort::Type);
        }
        5 => drop(field(list)),
        6 => {
            let lacked = list.some_labels(4);
            empty(list, lacked);
        }
        _ => {
            let lacked = list.some_labels(3) | 1 << list.below(6);
            let label = list.shuffled(lacked)[0];
            let (field, rest) = (list.of(Sort::Field), list.of(Sort::Row(lacked)));
            list.build_row(label, field, rest, lacked);
        }
    }
}

fn leaf(list: &mut List) -> usize {
    let head = ["whole", "tenth", "flag"][list.below(3)];
    list.build(head, Sort::Type)
}

fn function(list: &mut List) -> usize {
    let (a, b) = (list.of(Sort::Type), list.of(Sort::Type));
    list.build(&format!("to #{a} #{b}"), Sort::Type)
}

fn field(list: &mut List) -> usize {
    match list.below(4) {
        0 => list.build("absent", Sort::Field),
        1 => list.fresh(Sort::Field),
        _ => {
            let a = list.of(Sort::Type);
            list.build(&format!("has #{a}"), Sort::Field)
        }
    }
}

fn empty(list: &mut List, lacked: u32) -> usize {
    let set = list.labels(lacked);
    list.build(&format!("empty{set}"), Sort::Row(lacked))
}

pub fn equate(list: &mut List) {
    let sort = match list.below(2) {
        0 => Sort::Type,
        _ => list.sort_of_any(),
    };
    let (a, b) = (list.of(sort), list.of(sort));
    list.equate(a, b);
}

pub fn equate_anything(list: &mut List) {
    let (a, b) = (list.any(), list.any());
    list.equate(a, b);
}

pub fn demand(list: &mut List) {
    let class = match list.once_in(25) {
        true => list.between(4, 300),
        false => list.below(4),
    };
    let code = match list.once_in(15) {
        true => list.any(),
        false => list.of(Sort::Type),
    };
    list.say(format!("demand {class} #{code}"));
    if list.once_in(2) {
        list.show(&[code]);
    }
}

pub fn show(list: &mut List) {
    let code = list.any();
    list.show(&[code]);
}

pub fn tally(list: &mut List) {
    list.say("tally".to_string());
}

pub fn mark(list: &mut List) {
    list.mark();
}

/// Ends a mark; now and then though none is open.
pub fn end_mark(list: &mut List) {
    if list.open_marks() > 0 || list.once_in(4) {
        let back = !list.once_in(3);
        list.end_mark(back);
        show(list);
    }
}

/// More marks than there can be.
pub fn many_marks(list: &mut List) {
    for _ in 0..9 {
        list.mark();
    }
    tally(list);
    while list.open_marks() > 0 {
        equate(list);
        end_mark(list);
    }
}

/// A row that lacks nothing, its labels put in some order over an open or an empty
/// rest.
fn row(list: &mut List, labels: u32) -> usize {
    let mut rest = match list.once_in(4) {
        true => empty(list, labels),
        false => list.fresh(Sort::Row(labels)),
    };
    let mut lacked = labels;
    for label in list.shuffled(labels) {
        let field = match list.once_in(2) {
            true => field(list),
            false => list.of(Sort::Field),
        };
        rest = list.build_row(label, field, rest, lacked);
        lacked &= !(1 << label);
    }
    rest
}

fn many_labels(list: &mut List, most: usize) -> u32 {
    let count = list.between(1, most);
    (0..count).fold(0, |set, _| set | 1 << list.below(LABELS))
}

/// Two rows that share some labels, equated as rows or as records.
pub fn rows_meet(list: &mut List) {
    let most = [3, 5, 12, 30][list.below(4)];
    let (some, others) = (many_labels(list, most), many_labels(list, most));
    let others = match list.below(3) {
        0 => some,
        1 => others,
        _ => some & others | 1 << list.below(LABELS),
    };
    let (a, b) = (row(list, some), row(list, others));
    if list.once_in(2) {
        list.equate(a, b);
        return;
    }
    let a = list.build(&format!("record #{a}"), Sort::Type);
    let b = list.build(&format!("record #{b}"), Sort::Type);
    list.equate(a, b);
}

/// Rows over one rest, so that what one gets the other has as well.
pub fn rows_share(list: &mut List) {
    let labels = 0b11 << list.below(LABELS - 1);
    let rest = list.fresh(Sort::Row(labels));
    let mut wholes = Vec::new();
    for _ in 0..2 {
        let (mut row, mut lacked) = (rest, labels);
        for label in list.shuffled(labels) {
            let field = list.of(Sort::Field);
            row = list.build_row(label, field, row, lacked);
            lacked &= !(1 << label);
        }
        wholes.push(row);
    }
    let most = 4;
    let others = many_labels(list, most);
    let other = row(list, others);
    list.equate(wholes[0], other);
    list.equate(wholes[0], wholes[1]);
}

/// A pair of function types whose parts are rows with rests in common.
pub fn rows_cross(list: &mut List) {
    let mut sides = Vec::new();
    for _ in 0..2 {
        let mut records = Vec::new();
        for _ in 0..2 {
            let row = match list.once_in(2) {
                true => list.of(Sort::Row(0)),
                false => {
                    let labels = list.some_labels(3);
                    row(list, labels)
                }
            };
            records.push(list.build(&format!("record #{row}"), Sort::Type));
        }
        let words = format!("to #{} #{}", records[0], records[1]);
        sides.push(list.build(&words, Sort::Type));
    }
    list.equate(sides[0], sides[1]);
}

/// An open type equated with something over itself, or nearly.
pub fn knot(list: &mut List) {
    let a = list.fresh(Sort::Type);
    let mut inner = match list.once_in(5) {
        true => list.of(Sort::Type),
        false => a,
    };
    for _ in 0..list.between(1, 4) {
        inner = wrap(list, inner);
    }
    let other = match list.once_in(3) {
        true => wrap(list, a),
        false => a,
    };
    list.equate(other, inner);
}

fn wrap(list: &mut List, inner: usize) -> usize {
    let other = list.of(Sort::Type);
    match list.below(if list.rows { 4 } else { 3 }) {
        0 => list.build(&format!("list #{inner}"), Sort::Type),
        1 => list.build(&format!("to #{inner} #{other}"), Sort::Type),
        2 => list.build(&format!("to #{other} #{inner}"), Sort::Type),
        _ => {
            let field = list.build(&format!("has #{inner}"), Sort::Field);
            let label = list.below(LABELS);
            let rest = list.of(Sort::Row(1 << label));
            let row = list.build_row(label, field, rest, 1 << label);
            list.build(&format!("record #{row}"), Sort::Type)
        }
    }
}

/// A chain of equates that doubles a type at each step.
pub fn double(list: &mut List) {
    let mut last = list.of(Sort::Type);
    for _ in 0..list.between(2, 12) {
        let next = list.fresh(Sort::Type);
        let pair = list.build(&format!("to #{last} #{last}"), Sort::Type);
        list.equate(next, pair);
        last = next;
    }
}

/// Many open types with classes, so that the table fills.
pub fn crowd(list: &mut List) {
    for _ in 0..list.between(20, 60) {
        let code = list.fresh(Sort::Type);
        let class = list.below(4);
        list.say(format!("demand {class} #{code}"));
        if list.once_in(8) {
            equate(list);
        }
    }
    show(list);
}

/// Open types with some classes, then some of them equated at once with lists of
/// others, so that sets meet.
pub fn sets_meet(list: &mut List) {
    let mut held = Vec::new();
    for _ in 0..list.between(2, 4) {
        let code = list.fresh(Sort::Type);
        for _ in 0..list.between(1, 2) {
            let class = list.below(4);
            list.say(format!("demand {class} #{code}"));
        }
        held.push(code);
    }
    let mut sides = Vec::new();
    for deepest in [0, 2] {
        let mut parts = Vec::new();
        for _ in 0..2 {
            let mut part = held[list.below(held.len())];
            for _ in 0..list.below(deepest + 1) {
                part = list.build(&format!("list #{part}"), Sort::Type);
            }
            parts.push(part);
        }
        sides.push(list.build(&format!("to #{} #{}", parts[0], parts[1]), Sort::Type));
    }
    list.equate(sides[0], sides[1]);
}

/// A call that is wrong in one way or another.
pub fn slip(list: &mut List) {
    let (a, b) = (list.any(), list.any());
    let label = list.below(30);
    let lacked = list.below(30);
    let line = match list.below(17) {
        0 => format!("build to #{a} #{b}"),
        1 => format!("build list #{a}"),
        2 => format!("build record #{a}"),
        3 => format!("build has #{a}"),
        4 => format!("build row {label} #{a} #{b} {label}"),
        5 => format!("build row {label} #{a} #{b} {label} {lacked}"),
        6 => format!("build row {label} #{a} #{b} {lacked}"),
        7 => format!("build empty {label} {}", list.between(24, 9999)),
        8 => format!("fresh row {label} {}", list.between(24, 9999)),
        9 => format!("equate #{a} #{}", list.between(4000, 99999)),
        10 => format!("type #{a} #{b} #{}", list.between(4000, 99999)),
        11 => format!("look #{}", list.between(4096, 99999)),
        12 => format!("demand {} #{a}", list.below(9)),
        13 => format!("type #00{a} #{}", "9".repeat(list.between(1, 30))),
        14 => format!("fresh row 0{label} {label}"),
        15 => format!("equate #0{a} #{b}"),
        _ => malformed(list),
    };
    // What it makes, if it makes something, is undone, so that numbers stay known.
    let room = list.open_marks() < 7;
    if room {
        list.say("mark".to_string());
    }
    list.say(line);
    if room {
        list.say("back".to_string());
    }
}

fn malformed(list: &mut List) -> String {
    const LINES: [&str; 16] = [
        "fresh",
        "fresh types",
        "fresh type ",
        "fresh row a",
        "build",
        "build whole 1",
        "build to #0",
        "build list #0 #1",
        "build row 1 #0",
        "equate #0",
        "equate 0 1",
        "demand #0 1",
        "type",
        "type #",
        "tally 1",
        "keep #0",
    ];
    LINES[list.below(LINES.len())].to_string()
}
