//! What a system is asked, and how it refuses.

use super::sorts::{Head, Sort};

/// A code by its number; one that was never made is unknown.
pub type Code = usize;

#[derive(Clone, Debug, PartialEq, Eq)]
pub enum Request {
    Fresh(Sort),
    Build(Head, Vec<Code>),
    Equate(Code, Code),
    Demand(u32, Code),
    Look(Code),
    Tally,
    Mark,
    Keep,
    Back,
    Type(Vec<Code>),
}

const CLASS_LAYER: u8 = 3;
const BOTTOM: u8 = 4;

#[derive(Clone, Copy, Debug, PartialEq, Eq)]
pub struct Refusal {
    pub number: u8,
    pub layer: u8,
}

impl Refusal {
    pub fn of_bottom(number: u8) -> Refusal {
        Refusal {
            number,
            layer: BOTTOM,
        }
    }

    pub fn of_classes(number: u8) -> Refusal {
        Refusal {
            number,
            layer: CLASS_LAYER,
        }
    }
}
