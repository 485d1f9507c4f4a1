//! Makes scripts by the grammar, with every name bound and every label on the
//! sheet, except for slips if they are asked for.

use crate::pieces::{piece, Piece, Role};
use crate::rng::Rng;
use crate::setting::Setting;
use crate::words;

/// What stands behind a head word.
#[derive(Clone, Copy, Debug, PartialEq, Eq)]
pub enum Slot {
    Binder,
    Label,
    /// A form in which the name just bound is not known.
    Outside,
    /// A form in which it is.
    Inside,
}

use Slot::{Binder, Inside, Label, Outside};

pub struct Shape {
    pub head: &'static str,
    pub slots: &'static [Slot],
    pub record: bool,
}

pub const SHAPES: [Shape; 9] = [
    Shape {
        head: "fun",
        slots: &[Binder, Inside],
        record: false,
    },
    Shape {
        head: "call",
        slots: &[Outside, Outside],
        record: false,
    },
    Shape {
        head: "let",
        slots: &[Binder, Outside, Inside],
        record: false,
    },
    Shape {
        head: "rec",
        slots: &[Binder, Inside],
        record: false,
    },
    Shape {
        head: "if",
        slots: &[Outside, Outside, Outside],
        record: false,
    },
    Shape {
        head: "record",
        slots: &[],
        record: true,
    },
    Shape {
        head: "with",
        slots: &[Outside, Label, Outside],
        record: true,
    },
    Shape {
        head: "get",
        slots: &[Outside, Label],
        record: true,
    },
    Shape {
        head: "drop",
        slots: &[Outside, Label],
        record: true,
    },
];

impl Shape {
    pub fn sub_forms(&self) -> usize {
        self.slots
            .iter()
            .filter(|slot| matches!(slot, Inside | Outside))
            .count()
    }

    fn needs_label(&self) -> bool {
        self.slots.contains(&Label)
    }
}

/// From this many forms on, a form has at least two sub-forms of similar size,
/// which keeps brackets less than 32 deep.
const LARGE: usize = 12;
const SUB_FORMS_MOST: usize = 3;

pub struct Maker<'a> {
    rng: &'a mut Rng,
    setting: &'a Setting,
    /// One leaf, name, label or head in so many is wrong; 0 for none.
    slips: usize,
    short: bool,
    scope: Vec<String>,
    pieces: Vec<Piece>,
}

impl<'a> Maker<'a> {
    pub fn new(rng: &'a mut Rng, setting: &'a Setting) -> Maker<'a> {
        let scope = setting.built_in();
        Maker {
            rng,
            setting,
            slips: 0,
            short: false,
            scope,
            pieces: Vec::new(),
        }
    }

    pub fn with_slips(mut self, one_in: usize) -> Maker<'a> {
        self.slips = one_in;
        self
    }

    /// Uses short words only, so that many forms fit into a script.
    pub fn with_short_words(mut self) -> Maker<'a> {
        self.short = true;
        self
    }

    /// A script of exactly `forms` forms.
    pub fn script(mut self, forms: usize) -> Vec<Piece> {
        self.form(forms);
        self.pieces
    }

    /// Chains forms `levels` deep, each one a sub-form of the one before, with
    /// the given pieces inside the innermost.
    pub fn chain(mut self, levels: usize, inner: &[Piece]) -> Vec<Piece> {
        self.link(levels, inner);
        self.pieces
    }

    fn slip(&mut self) -> bool {
        self.slips > 0 && self.rng.once_in(self.slips)
    }

    fn push(&mut self, role: Role, text: &str) {
        self.pieces.push(piece(role, text));
    }

    fn form(&mut self, forms: usize) {
        let records = self.records_usable();
        if forms == 1 && !(records && self.rng.once_in(5)) {
            return self.leaf();
        }
        let shape = self.shape(forms, records);
        let mut sizes = self.sizes(shape.sub_forms(), forms - 1).into_iter();
        self.bracket(shape, |maker| {
            let forms = sizes.next().expect("one size for each sub-form");
            maker.form(forms);
        });
    }

    fn link(&mut self, levels: usize, inner: &[Piece]) {
        if levels == 0 {
            self.pieces.extend_from_slice(inner);
            return;
        }
        let records = self.records_usable();
        let shape = self.pick_shape(1, SUB_FORMS_MOST, records);
        let deep = self.rng.below(shape.sub_forms());
        let mut next = 0;
        self.bracket(shape, |maker| {
            if next == deep {
                maker.link(levels - 1, inner);
            } else {
                maker.leaf();
            }
            next += 1;
        });
    }

    /// A form in brackets, its sub-forms made by `sub_form` from the left.
    fn bracket(&mut self, shape: &Shape, mut sub_form: impl FnMut(&mut Self)) {
        let bound_outside = self.scope.len();
        let mut bound = None;
        self.push(Role::Open, "(");
        self.push(Role::Head, shape.head);
        for slot in shape.slots {
            match slot {
                Binder => bound = Some(self.binder()),
                Label => self.label(),
                Outside => sub_form(self),
                Inside => {
                    self.scope.extend(bound.take());
                    sub_form(self);
                }
            }
        }
        self.scope.truncate(bound_outside);
        self.push(Role::Close, ")");
    }

    fn records_usable(&mut self) -> bool {
        self.setting.knows_records() || self.slip()
    }

    fn usable(&self, shape: &Shape, records: bool) -> bool {
        let labels = !self.setting.labels.is_empty() || self.slips > 0;
        (records || !shape.record) && (labels || !shape.needs_label())
    }

    fn shape(&mut self, forms: usize, records: bool) -> &'static Shape {
        match forms {
            1 => self.pick_shape(0, 0, records),
            2..=LARGE => self.pick_shape(1, forms - 1, records),
            _ => self.pick_shape(2, SUB_FORMS_MOST, records),
        }
    }

    /// A shape that can be used here and has `least` to `most` sub-forms.
    fn pick_shape(&mut self, least: usize, most: usize, records: bool) -> &'static Shape {
        let fits: Vec<&Shape> = SHAPES
            .iter()
            .filter(|shape| (least..=most).contains(&shape.sub_forms()))
            .filter(|shape| self.usable(shape, records))
            .collect();
        self.rng.pick(&fits)
    }

    /// Shares `total` forms among `count` sub-forms, each getting at least one.
    fn sizes(&mut self, count: usize, total: usize) -> Vec<usize> {
        let mut left = total - count;
        (1..=count)
            .rev()
            .map(|shares| {
                let share = self.share(left, shares, total > LARGE);
                left -= share;
                1 + share
            })
            .collect()
    }

    fn share(&mut self, left: usize, shares: usize, evenly: bool) -> usize {
        let fair = left / shares;
        if shares == 1 {
            left
        } else if evenly {
            fair / 2 + self.rng.below(fair + 1)
        } else {
            self.rng.below(left + 1)
        }
    }

    fn leaf(&mut self) {
        let text = if self.slip() {
            self.wrong_leaf()
        } else {
            self.good_leaf()
        };
        self.push(Role::Leaf, &text);
    }

    fn good_leaf(&mut self) -> String {
        let innermost = self.scope.last().expect("there are built-in names").clone();
        match (self.rng.below(6), self.short) {
            (0, _) => self.rng.pick(&["yes", "no"]).to_string(),
            (1, true) => self.rng.below(10).to_string(),
            (1, false) => self.rng.pick(&words::IN_RANGE).to_string(),
            (2, false) => self.rng.between(0, 32767).to_string(),
            (3, false) => format!("{}.{}", self.rng.below(3276), self.rng.below(10)),
            (4, _) => innermost,
            _ => self.rng.pick_one(&self.scope).clone(),
        }
    }

    fn wrong_leaf(&mut self) -> String {
        match self.rng.below(6) {
            0 => self.rng.pick(&words::UNBOUND).to_string(),
            1 | 2 => self.rng.pick(&words::BINDERS).to_string(),
            3 => self.rng.pick(&words::OUT_OF_RANGE).to_string(),
            4 => words::number_near_end(self.rng),
            _ => words::any_word(self.rng, &self.setting.labels),
        }
    }

    fn binder(&mut self) -> String {
        let name = if self.slip() {
            words::any_word(self.rng, &self.setting.labels)
        } else if self.short {
            self.rng.pick(&["x", "y", "f"]).to_string()
        } else {
            self.rng.pick(&words::BINDERS).to_string()
        };
        self.push(Role::Name, &name);
        name
    }

    fn label(&mut self) {
        let label = if self.slip() || self.setting.labels.is_empty() {
            self.wrong_label()
        } else {
            self.rng.pick_one(&self.setting.labels).clone()
        };
        self.push(Role::Label, &label);
    }

    fn wrong_label(&mut self) -> String {
        match self.rng.below(3) {
            0 => self.rng.pick(&words::OFF_SHEET).to_string(),
            1 => self.rng.pick(&words::LABELS).to_string(),
            _ => words::any_word(self.rng, &self.setting.labels),
        }
    }
}
