//! A list of calls in the making. It keeps the sorts of the codes as they are if
//! no call is refused, so that most calls are about known codes of the right sort.

use crate::rng::Rng;

pub const LABELS: usize = 24;

/// Sorts; a row by the set of labels that it lacks.
#[derive(Clone, Copy, PartialEq, Eq)]
pub enum Sort {
    Type,
    Field,
    Row(u32),
}

pub struct List {
    rng: Rng,
    pub rows: bool,
    pub classes: bool,
    pub lines: Vec<String>,
    codes: Vec<Sort>,
    marks: Vec<usize>,
    capacity: usize,
}

impl List {
    pub fn new(rng: Rng, pile: &str, rows: bool, classes: bool, capacity: usize) -> List {
        List {
            rng,
            rows,
            classes,
            lines: vec![format!("pile {pile} {capacity}")],
            codes: Vec::new(),
            marks: Vec::new(),
            capacity,
        }
    }

    pub fn below(&mut self, bound: usize) -> usize {
        self.rng.below(bound)
    }

    pub fn between(&mut self, low: usize, high: usize) -> usize {
        self.rng.between(low, high)
    }

    pub fn once_in(&mut self, times: usize) -> bool {
        self.rng.once_in(times)
    }

    pub fn say(&mut self, line: String) {
        self.lines.push(line);
    }

    /// A code more, as far as cells go.
    fn made(&mut self, sort: Sort) -> usize {
        if self.codes.len() < self.capacity {
            self.codes.push(sort);
        }
        self.codes.len() - 1
    }

    pub fn fresh(&mut self, sort: Sort) -> usize {
        let words = match sort {
            Sort::Type => "type".to_string(),
            Sort::Field => "field".to_string(),
            Sort::Row(lacked) => format!("row{}", self.labels(lacked)),
        };
        self.say(format!("fresh {words}"));
        self.made(sort)
    }

    pub fn build(&mut self, words: &str, sort: Sort) -> usize {
        self.say(format!("build {words}"));
        self.made(sort)
    }

    pub fn build_row(&mut self, label: usize, field: usize, rest: usize, lacked: u32) -> usize {
        let set = self.labels(lacked);
        let words = format!("row {label} #{field} #{rest}{set}");
        self.build(&words, Sort::Row(lacked & !(1 << label)))
    }

    /// Equates and shows what came of it.
    pub fn equate(&mut self, a: usize, b: usize) {
        self.say(format!("equate #{a} #{b}"));
        self.show(&[a, b]);
    }

    /// The values of these codes, and of some others.
    pub fn show(&mut self, codes: &[usize]) {
        let mut words: Vec<String> = codes.iter().map(|code| format!("#{code}")).collect();
        for _ in 0..self.below(3) {
            words.push(format!("#{}", self.any()));
        }
        self.say(format!("type {}", words.join(" ")));
    }

    pub fn mark(&mut self) {
        self.say("mark".to_string());
        if self.marks.len() < if self.classes { 7 } else { 8 } {
            self.marks.push(self.codes.len());
        }
    }

    pub fn end_mark(&mut self, back: bool) {
        self.say(if back { "back" } else { "keep" }.to_string());
        let made = self.marks.pop();
        if let (true, Some(made)) = (back, made) {
            self.codes.truncate(made);
        }
    }

    pub fn count(&self) -> usize {
        self.codes.len()
    }

    pub fn sort(&self, code: usize) -> Sort {
        self.codes[code]
    }

    pub fn open_marks(&self) -> usize {
        self.marks.len()
    }

    /// Any code, now and then one that was never made.
    pub fn any(&mut self) -> usize {
        if self.codes.is_empty() || self.once_in(40) {
            return self.codes.len() + self.below(3) * self.below(40);
        }
        self.below(self.codes.len())
    }

    /// A code of that sort, one of the newest more often than others; made if there
    /// is none.
    pub fn of(&mut self, sort: Sort) -> usize {
        let all: Vec<usize> = (0..self.codes.len())
            .filter(|code| self.codes[*code] == sort)
            .collect();
        if all.is_empty() || self.once_in(12) {
            return self.fresh(sort);
        }
        let newest = all.len().saturating_sub(6);
        match self.below(2) {
            0 => all[self.between(newest, all.len() - 1)],
            _ => all[self.below(all.len())],
        }
    }

    pub fn sort_of_any(&mut self) -> Sort {
        if self.codes.is_empty() {
            return Sort::Type;
        }
        let code = self.below(self.codes.len());
        self.codes[code]
    }

    /// A set of labels, in small numbers mostly.
    pub fn some_labels(&mut self, most: usize) -> u32 {
        let count = self.below(most + 1);
        let range = if self.once_in(3) { LABELS } else { 6 };
        (0..count).fold(0, |set, _| set | 1 << self.below(range))
    }

    /// The labels of a set as words, each behind a space, in some order.
    pub fn labels(&mut self, set: u32) -> String {
        let words = self.shuffled(set).into_iter();
        words.map(|label| format!(" {label}")).collect()
    }

    pub fn shuffled(&mut self, set: u32) -> Vec<usize> {
        let mut left: Vec<usize> = (0..LABELS)
            .filter(|label| set & (1 << label) != 0)
            .collect();
        let mut labels = Vec::new();
        while !left.is_empty() {
            labels.push(left.swap_remove(self.below(left.len())));
        }
        labels
    }
}
