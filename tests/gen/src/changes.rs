//! Scripts made by the grammar and then changed: byte by byte, piece by piece,
//! cut short, or with a byte that may not stand in a script.

use crate::kinds::{small_script, well_scoped, with_slips};
use crate::pieces::{piece, render_somehow, Piece, Role};
use crate::rng::Rng;
use crate::setting::Setting;
use crate::words;

pub fn bytes_changed(rng: &mut Rng, setting: &Setting) -> Vec<u8> {
    let mut script = well_scoped(rng, setting);
    for _ in 0..rng.between(1, 2) {
        change_byte(rng, &mut script);
    }
    script
}

fn change_byte(rng: &mut Rng, script: &mut Vec<u8>) {
    let at = rng.below(script.len() + 1);
    if at == script.len() {
        script.push(rng.byte(32, 126));
        return;
    }
    match rng.below(6) {
        0 => {
            script.remove(at);
        }
        1 => script.insert(at, script[at]),
        2 => {
            let other = rng.below(script.len());
            script.swap(at, other);
        }
        3 => script[at] = rng.byte(32, 126),
        4 => script[at] = *rng.pick_one(b"() -.0aZ"),
        _ => script.insert(at, *rng.pick_one(b"() -.9a{")),
    }
}

pub fn pieces_changed(rng: &mut Rng, setting: &Setting) -> Vec<u8> {
    let mut pieces = small_script(rng, setting, 0);
    for _ in 0..rng.between(1, 2) {
        change_piece(rng, setting, &mut pieces);
    }
    render_somehow(&pieces, rng)
}

pub fn change_piece(rng: &mut Rng, setting: &Setting, pieces: &mut Vec<Piece>) {
    if pieces.is_empty() {
        return;
    }
    let at = rng.below(pieces.len());
    match rng.below(8) {
        0 => {
            pieces.remove(at);
        }
        1 => pieces.insert(at, pieces[at].clone()),
        2 => {
            let other = rng.below(pieces.len());
            pieces.swap(at, other);
        }
        3 => pieces.insert(at, any_piece(rng, setting)),
        4 => pieces.push(any_piece(rng, setting)),
        5 => pieces[at].text = rng.pick(&words::RESERVED).to_string(),
        _ => pieces[at].text = any_piece(rng, setting).text,
    }
}

/// A bracket or a word.
pub fn any_piece(rng: &mut Rng, setting: &Setting) -> Piece {
    let word = words::any_word(rng, &setting.labels);
    let text = match rng.below(6) {
        0 => "(",
        1 => ")",
        _ => &word,
    };
    piece(Role::Leaf, text)
}

/// Cut at a random byte, or in front of a piece, at times with spaces behind.
pub fn cut_short(rng: &mut Rng, setting: &Setting) -> Vec<u8> {
    let mut pieces = small_script(rng, setting, 0);
    let mut script = if rng.once_in(2) {
        pieces.truncate(rng.below(pieces.len()));
        render_somehow(&pieces, rng)
    } else {
        let whole = render_somehow(&pieces, rng);
        whole[..rng.below(whole.len())].to_vec()
    };
    script.extend(std::iter::repeat_n(b' ', rng.below(3)));
    script
}

pub fn bad_byte(rng: &mut Rng, setting: &Setting) -> Vec<u8> {
    let mut script = with_slips(rng, setting);
    let at = rng.below(script.len() + 1);
    script.insert(
        at,
        *rng.pick_one(&[0, 1, 9, 11, 13, 31, 127, 128, 160, 195, 255]),
    );
    script
}
