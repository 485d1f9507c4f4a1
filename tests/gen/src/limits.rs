//! Scripts near the limits of size, depth, number of forms and range.

use std::slice::from_ref;

use crate::changes::{any_piece, change_piece, pieces_changed};
use crate::grammar::Maker;
use crate::kinds::{well_scoped, with_slips};
use crate::pieces::{piece, render_canonical, render_somehow, start_of_form, Piece, Role};
use crate::rng::Rng;
use crate::setting::Setting;
use crate::words;

/// From 4,094 to 4,098 bytes, at times many more.
pub fn near_size_limit(rng: &mut Rng, setting: &Setting) -> Vec<u8> {
    let length = match rng.below(12) {
        0 => rng.between(4099, 12000),
        _ => rng.between(4094, 4098),
    };
    let mut script = match rng.below(4) {
        0 => with_slips(rng, setting),
        1 => pieces_changed(rng, setting),
        _ => well_scoped(rng, setting),
    };
    script.truncate(4000);
    stretch(rng, &mut script, length);
    if rng.once_in(5) {
        let at = rng.below(script.len());
        script[at] = *rng.pick_one(&[0, 9, 31, 127, 200]);
    }
    script
}

/// Makes a script as long as asked for, with spaces or with digits or letters.
fn stretch(rng: &mut Rng, script: &mut Vec<u8>, length: usize) {
    let missing = length - script.len();
    let gaps: Vec<usize> = (0..script.len())
        .filter(|at| b" ()".contains(&script[*at]))
        .collect();
    let digits: Vec<usize> = (0..script.len())
        .filter(|at| script[*at].is_ascii_digit())
        .collect();
    let (at, byte) = match rng.below(7) {
        0 => (0, b' '),
        1 => (script.len(), b' '),
        2 | 3 if !gaps.is_empty() => (*rng.pick_one(&gaps), b' '),
        4 | 5 if !digits.is_empty() => (*rng.pick_one(&digits), b'0'),
        _ => (rng.below(script.len() + 1), *rng.pick_one(b" 0a1)(x")),
    };
    script.splice(at..at, std::iter::repeat_n(byte, missing));
}

/// A chain of forms with something small at its inner end, so that a bracket
/// opens depth 31 to 34, in a form's place or in another.
pub fn near_depth_limit(rng: &mut Rng, setting: &Setting) -> Vec<u8> {
    let inner = inner_end(rng, setting);
    let levels = rng.between(29, 33);
    let slips = *rng.pick(&[&0, &0, &0, &80]);
    let mut pieces = Maker::new(rng, setting)
        .with_slips(slips)
        .chain(levels, &inner);
    if rng.once_in(8) {
        change_piece(rng, setting, &mut pieces);
    }
    render_somehow(&pieces, rng)
}

fn inner_end(rng: &mut Rng, setting: &Setting) -> Vec<Piece> {
    let slips = *rng.pick(&[&0, &0, &10]);
    let forms = rng.between(1, 4);
    let mut pieces = Maker::new(rng, setting).with_slips(slips).script(forms);
    let at = rng.below(pieces.len());
    match rng.below(5) {
        0 | 1 => pieces[at].text = "(".to_string(),
        2 => pieces.insert(at, piece(Role::Open, "(")),
        3 => change_piece(rng, setting, &mut pieces),
        _ => (),
    }
    pieces
}

/// From 510 to 515 forms, at times with another piece where form 511 to 514 begins.
pub fn near_form_limit(rng: &mut Rng, setting: &Setting) -> Vec<u8> {
    let forms = rng.between(510, 515);
    let mut pieces = Maker::new(rng, setting).with_short_words().script(forms);
    if rng.once_in(2) {
        let number = rng.between(511, 514);
        change_start_of_form(rng, setting, &mut pieces, number);
    }
    render_canonical(&pieces)
}

fn change_start_of_form(rng: &mut Rng, setting: &Setting, pieces: &mut Vec<Piece>, number: usize) {
    let Some(at) = start_of_form(pieces, number) else {
        return;
    };
    match rng.below(3) {
        0 => pieces.truncate(at),
        1 => pieces[at].text = any_piece(rng, setting).text,
        _ => pieces.insert(at, any_piece(rng, setting)),
    }
}

/// A place where about 32 brackets are open and about 512 forms have begun, with
/// something small in it.
pub fn near_both_limits(rng: &mut Rng, setting: &Setting) -> Vec<u8> {
    let marker = piece(Role::Leaf, "");
    let levels = rng.between(30, 32);
    let mut end = Maker::new(rng, setting)
        .with_short_words()
        .chain(levels, from_ref(&marker));
    let at = end
        .iter()
        .position(|piece| *piece == marker)
        .expect("the chain holds its inner end");
    let begun = end[..at].iter().filter(|piece| piece.begins_form()).count();
    let inner = inner_end(rng, setting);
    end.splice(at..=at, inner);

    let forms = rng.between(510, 513);
    let mut pieces = vec![piece(Role::Open, "("), piece(Role::Head, "call")];
    pieces.extend(
        Maker::new(rng, setting)
            .with_short_words()
            .script(forms - 1 - begun),
    );
    pieces.extend(end);
    pieces.push(piece(Role::Close, ")"));
    render_canonical(&pieces)
}

pub fn with_long_number(rng: &mut Rng, setting: &Setting) -> Vec<u8> {
    let length = *rng.pick(&[&20, &39, &100, &1000, &2000, &4000]);
    let number = words::long_number(rng, length);
    let forms = rng.between(1, 5);
    let mut pieces = Maker::new(rng, setting).script(forms);
    let leaves: Vec<usize> = (0..pieces.len())
        .filter(|at| pieces[*at].role == Role::Leaf)
        .collect();
    let at = if leaves.is_empty() || rng.once_in(10) {
        rng.below(pieces.len())
    } else {
        *rng.pick_one(&leaves)
    };
    pieces[at].text = number;
    render_somehow(&pieces, rng)
}
