//! Sorts of values, and the heads that build them.

use std::collections::BTreeSet;

pub const LABELS: u32 = 24;

/// Labels as they were written; those above 23 are unknown.
pub type Labels = BTreeSet<u32>;

#[derive(Clone, Debug, PartialEq, Eq)]
pub enum Sort {
    Type,
    Field,
    /// A row lacking these labels.
    Row(Labels),
}

impl Sort {
    pub fn is_known(&self, rows: bool) -> bool {
        match self {
            Sort::Type => true,
            Sort::Field => rows,
            Sort::Row(lacked) => rows && known_labels(lacked),
        }
    }
}

pub fn known_labels(labels: &Labels) -> bool {
    labels.iter().all(|label| *label < LABELS)
}

/// A head without its children; the rows' heads have what they take besides.
#[derive(Clone, Debug, PartialEq, Eq)]
pub enum Head {
    Whole,
    Tenth,
    Flag,
    To,
    List,
    Record,
    Absent,
    Has,
    Empty(Labels),
    Row(u32, Labels),
}

impl Head {
    /// Whether the head is one of the first five.
    pub fn is_plain(&self) -> bool {
        matches!(
            self,
            Head::Whole | Head::Tenth | Head::Flag | Head::To | Head::List
        )
    }

    /// The sorts of the children.
    pub fn takes(&self) -> Vec<Sort> {
        match self {
            Head::Whole | Head::Tenth | Head::Flag | Head::Absent | Head::Empty(_) => vec![],
            Head::To => vec![Sort::Type, Sort::Type],
            Head::List | Head::Has => vec![Sort::Type],
            Head::Record => vec![Sort::Row(Labels::new())],
            Head::Row(_, lacked) => vec![Sort::Field, Sort::Row(lacked.clone())],
        }
    }

    /// The sort of what is built.
    pub fn gives(&self) -> Sort {
        match self {
            Head::Absent | Head::Has => Sort::Field,
            Head::Empty(lacked) => Sort::Row(lacked.clone()),
            Head::Row(label, lacked) => {
                let mut left = lacked.clone();
                left.remove(label);
                Sort::Row(left)
            }
            _ => Sort::Type,
        }
    }

    /// Whether the labels that come with the head are such as it takes.
    pub fn has_good_labels(&self) -> bool {
        match self {
            Head::Empty(lacked) => known_labels(lacked),
            Head::Row(label, lacked) => known_labels(lacked) && lacked.contains(label),
            _ => true,
        }
    }
}
