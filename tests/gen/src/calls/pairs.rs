//! Every two equates after one another, over some codes of all sorts, counted through
//! and not drawn.

use super::list::{List, Sort};
use crate::rng::Rng;

/// What is demanded before the equates, where there are classes.
const DEMANDS: [&[&str]; 5] = [
    &[],
    &["demand 0 #0"],
    &["demand 2 #0", "demand 2 #1"],
    &["demand 1 #0", "demand 3 #1"],
    &["demand 3 #1", "demand 1 #0", "demand 0 #0"],
];

pub fn input(piles: &str) -> Vec<Vec<u8>> {
    let mut all = Vec::new();
    for pile in piles.split(',') {
        let demands = if pile.starts_with("class") {
            &DEMANDS[..]
        } else {
            &DEMANDS[..1]
        };
        for demanded in demands {
            all.extend(list(pile, demanded));
        }
    }
    all
}

fn list(pile: &str, demanded: &[&str]) -> Vec<Vec<u8>> {
    let rows = pile.ends_with("rows");
    let classes = pile.starts_with("class");
    let mut list = List::new(Rng::new(0, 0, 0), pile, rows, classes, 40);
    types(&mut list);
    if rows {
        fields_and_rows(&mut list);
    }
    demanded.iter().for_each(|line| list.say(line.to_string()));
    let shown: Vec<String> = (0..list.count()).map(|code| format!("#{code}")).collect();
    let shown = format!("type {}", shown.join(" "));
    let pairs = pairs(&list);
    for first in &pairs {
        list.say("mark".to_string());
        list.say(first.clone());
        for second in &pairs {
            list.say("mark".to_string());
            list.say(second.clone());
            list.say(shown.clone());
            list.say("back".to_string());
        }
        list.say("back".to_string());
    }
    list.lines.into_iter().map(String::into_bytes).collect()
}

/// An equate for each two codes of one sort.
fn pairs(list: &List) -> Vec<String> {
    let mut all = Vec::new();
    for a in 0..list.count() {
        for b in 0..a {
            if list.sort(a) == list.sort(b) {
                all.push(format!("equate #{a} #{b}"));
            }
        }
    }
    all
}

fn types(list: &mut List) {
    let a = list.fresh(Sort::Type);
    let b = list.fresh(Sort::Type);
    let flag = list.build("flag", Sort::Type);
    let lists = list.build(&format!("list #{a}"), Sort::Type);
    list.build(&format!("list #{flag}"), Sort::Type);
    list.build(&format!("to #{a} #{b}"), Sort::Type);
    list.build(&format!("to #{b} #{lists}"), Sort::Type);
}

fn fields_and_rows(list: &mut List) {
    let field = list.fresh(Sort::Field);
    let has = list.build("has #0", Sort::Field);
    let absent = list.build("absent", Sort::Field);
    let open = list.fresh(Sort::Row(0b11));
    let empty = list.build("empty 0 1", Sort::Row(0b11));
    let first = list.fresh(Sort::Row(0b01));
    let second = list.fresh(Sort::Row(0b10));
    // Two orders over one rest, one over the empty rest, and each label alone.
    let inner = list.build_row(0, has, open, 0b11);
    let whole = list.build_row(1, absent, inner, 0b10);
    let inner = list.build_row(1, field, open, 0b11);
    list.build_row(0, field, inner, 0b01);
    let inner = list.build_row(0, field, empty, 0b11);
    list.build_row(1, has, inner, 0b10);
    list.build_row(0, field, first, 0b01);
    list.build_row(1, has, second, 0b10);
    list.build(&format!("record #{whole}"), Sort::Type);
}
