//! Scripts as lists of words and brackets, and their spacing.

use crate::rng::Rng;

/// What a piece is there for.
#[derive(Clone, Copy, Debug, PartialEq, Eq)]
pub enum Role {
    /// A word that is a form.
    Leaf,
    /// An opening bracket.
    Open,
    Head,
    Name,
    Label,
    Close,
}

#[derive(Clone, Debug, PartialEq, Eq)]
pub struct Piece {
    pub role: Role,
    pub text: String,
}

pub fn piece(role: Role, text: &str) -> Piece {
    Piece {
        role,
        text: text.to_string(),
    }
}

impl Piece {
    fn is_bracket(&self) -> bool {
        self.text == "(" || self.text == ")"
    }

    pub fn begins_form(&self) -> bool {
        matches!(self.role, Role::Leaf | Role::Open)
    }
}

#[derive(Clone, Copy, Debug, PartialEq, Eq)]
pub enum Spacing {
    /// One space between parts, none inside the edges of brackets.
    Canonical,
    /// Spaces only between two words.
    Tight,
    /// Any number of spaces everywhere.
    Loose,
}

/// The space that stands in front of the second of two pieces.
fn gap(before: Option<&Piece>, after: &Piece, spacing: Spacing, rng: &mut Rng) -> usize {
    let Some(before) = before else {
        return if spacing == Spacing::Loose {
            rng.below(3)
        } else {
            0
        };
    };
    let needed = !before.is_bracket() && !after.is_bracket();
    let usual = before.text != "(" && after.text != ")";
    match spacing {
        Spacing::Canonical => usize::from(usual),
        Spacing::Tight => usize::from(needed),
        Spacing::Loose => usize::from(needed) + rng.below(3) * rng.below(2),
    }
}

pub fn render(pieces: &[Piece], spacing: Spacing, rng: &mut Rng) -> Vec<u8> {
    let mut script = Vec::new();
    let mut before = None;
    for after in pieces {
        let spaces = gap(before, after, spacing, rng);
        script.extend(std::iter::repeat_n(b' ', spaces));
        script.extend(after.text.as_bytes());
        before = Some(after);
    }
    if spacing == Spacing::Loose {
        script.extend(std::iter::repeat_n(b' ', rng.below(3)));
    }
    script
}

pub fn render_canonical(pieces: &[Piece]) -> Vec<u8> {
    render(pieces, Spacing::Canonical, &mut Rng::new(0, 0, 0))
}

pub fn render_somehow(pieces: &[Piece], rng: &mut Rng) -> Vec<u8> {
    let spacing = match rng.below(4) {
        0 | 1 => Spacing::Canonical,
        2 => Spacing::Tight,
        _ => Spacing::Loose,
    };
    render(pieces, spacing, rng)
}

/// The index of the piece with which the given form begins; forms count from 1.
pub fn start_of_form(pieces: &[Piece], number: usize) -> Option<usize> {
    let mut starts = pieces
        .iter()
        .enumerate()
        .filter(|(_, piece)| piece.begins_form());
    starts.nth(number - 1).map(|(index, _)| index)
}
