//! Refusals, in the form in which they are answered.

use std::fmt;

const READER: u8 = 1;
const SESSION: u8 = 2;
const BOTTOM_SYSTEM: u8 = 4;

#[derive(Clone, Copy, Debug, PartialEq, Eq)]
pub struct Fault {
    number: u8,
    start: usize,
    length: usize,
    layer: u8,
}

impl Fault {
    /// A fault of reading, at `length` bytes from `start`.
    pub fn reading(number: u8, start: usize, length: usize) -> Fault {
        Fault {
            number,
            start,
            length,
            layer: READER,
        }
    }

    /// The capacity of a pile is out of bounds.
    pub fn bad_capacity() -> Fault {
        Fault {
            number: 1,
            start: 0,
            length: 0,
            layer: BOTTOM_SYSTEM,
        }
    }

    /// The sheet has too many labels, a bad one, or one twice.
    pub fn bad_sheet() -> Fault {
        Fault {
            number: 2,
            start: 0,
            length: 0,
            layer: SESSION,
        }
    }
}

impl fmt::Display for Fault {
    fn fmt(&self, f: &mut fmt::Formatter<'_>) -> fmt::Result {
        write!(
            f,
            "fault {} {} {} {}",
            self.number, self.start, self.length, self.layer
        )
    }
}
