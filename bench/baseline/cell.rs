//! What a solver keeps of each code.

#[derive(Clone, Copy, PartialEq, Eq, Debug)]
pub enum Sort {
    Type,
    Field,
    /// A row, by the set of labels that it lacks.
    Row(u32),
}

/// All ten, though not all are in the work.
#[allow(dead_code)]
#[derive(Clone, Copy, PartialEq, Eq, Debug)]
pub enum Head {
    Whole,
    Tenth,
    Flag,
    To,
    List,
    Record,
    Absent,
    Has,
    Empty,
    Row,
}

#[derive(Clone, Copy, PartialEq, Eq, Debug)]
pub enum What {
    Open,
    Link(usize),
    Leaf(Head),
    One(Head, usize),
    Two(usize, usize),
    Row(u8, usize, usize),
}

#[derive(Clone, Copy, Debug)]
pub struct Cell {
    pub what: What,
    pub rank: usize,
    pub sort: Sort,
}

/// What a cell was before it was written.
#[derive(Clone, Copy, Debug)]
pub struct Undo {
    pub at: usize,
    pub was: Cell,
}
