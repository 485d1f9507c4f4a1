//! One small form for each head word.

use crate::grammar::{Shape, Slot, SHAPES};
use crate::pieces::{piece, Piece, Role};

/// A small form with each head, all words well placed, for a sheet that has `la`.
pub fn samples() -> Vec<Vec<Piece>> {
    let leaf = |text: &str| vec![piece(Role::Leaf, text)];
    let mut samples = vec![leaf("1"), leaf("not")];
    samples.extend(SHAPES.iter().map(sample));
    samples
}

fn sample(shape: &Shape) -> Vec<Piece> {
    let mut pieces = vec![piece(Role::Open, "("), piece(Role::Head, shape.head)];
    pieces.extend(shape.slots.iter().map(|slot| match slot {
        Slot::Binder => piece(Role::Name, "x"),
        Slot::Label => piece(Role::Label, "la"),
        Slot::Outside => piece(Role::Leaf, "1"),
        Slot::Inside => piece(Role::Leaf, "x"),
    }));
    pieces.push(piece(Role::Close, ")"));
    pieces
}
