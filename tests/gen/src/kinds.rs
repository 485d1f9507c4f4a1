//! The kinds of scripts and their shares.

use crate::changes::{bad_byte, bytes_changed, cut_short, pieces_changed};
use crate::grammar::Maker;
use crate::limits::{
    near_both_limits, near_depth_limit, near_form_limit, near_size_limit, with_long_number,
};
use crate::pieces::{piece, render_somehow, Piece, Role};
use crate::rng::Rng;
use crate::setting::Setting;
use crate::words;

type Kind = fn(&mut Rng, &Setting) -> Vec<u8>;

/// Each kind with its share of the lines.
const KINDS: [(usize, Kind); 16] = [
    (2, any_bytes),
    (3, printable_bytes),
    (5, bytes_of_few_kinds),
    (2, one_word),
    (12, random_words),
    (22, well_scoped),
    (14, with_slips),
    (14, bytes_changed),
    (16, pieces_changed),
    (6, cut_short),
    (3, bad_byte),
    (5, near_size_limit),
    (9, near_depth_limit),
    (6, near_form_limit),
    (4, near_both_limits),
    (3, with_long_number),
];

/// A script of a random kind.
pub fn script(rng: &mut Rng, setting: &Setting) -> Vec<u8> {
    let total = KINDS.iter().map(|(share, _)| share).sum();
    let mut draw = rng.below(total);
    for (share, kind) in KINDS {
        if draw < share {
            return kind(rng, setting);
        }
        draw -= share;
    }
    unreachable!("the draw is below the sum of the shares")
}

fn any_byte(rng: &mut Rng) -> u8 {
    match rng.byte(0, 254) {
        b'\n' => 255,
        byte => byte,
    }
}

fn any_bytes(rng: &mut Rng, _: &Setting) -> Vec<u8> {
    (0..rng.below(60)).map(|_| any_byte(rng)).collect()
}

fn printable_bytes(rng: &mut Rng, _: &Setting) -> Vec<u8> {
    (0..rng.below(30)).map(|_| rng.byte(32, 126)).collect()
}

/// Bytes that make words, numbers and brackets likely.
fn bytes_of_few_kinds(rng: &mut Rng, _: &Setting) -> Vec<u8> {
    let few = rng
        .pick(&["( )x1-.", "-.0123456789", "() ifnoyes", "  ()", "az09-."])
        .as_bytes();
    (0..rng.below(16)).map(|_| *rng.pick_one(few)).collect()
}

fn one_word(rng: &mut Rng, setting: &Setting) -> Vec<u8> {
    let word = words::any_word(rng, &setting.labels);
    render_somehow(&[piece(Role::Leaf, &word)], rng)
}

fn random_words(rng: &mut Rng, setting: &Setting) -> Vec<u8> {
    let openings = rng.between(1, 3);
    let count = rng.between(1, 25);
    let pieces: Vec<Piece> = (0..count)
        .map(|_| random_piece(rng, setting, openings))
        .collect();
    render_somehow(&pieces, rng)
}

fn random_piece(rng: &mut Rng, setting: &Setting, openings: usize) -> Piece {
    let word = match rng.below(9) {
        part if part < openings => "(".to_string(),
        8 => ")".to_string(),
        _ => words::any_word(rng, &setting.labels),
    };
    piece(Role::Leaf, &word)
}

pub fn small_script(rng: &mut Rng, setting: &Setting, slips: usize) -> Vec<Piece> {
    let forms = rng.between(1, 8) * rng.between(1, 5);
    Maker::new(rng, setting).with_slips(slips).script(forms)
}

pub fn well_scoped(rng: &mut Rng, setting: &Setting) -> Vec<u8> {
    let pieces = small_script(rng, setting, 0);
    render_somehow(&pieces, rng)
}

pub fn with_slips(rng: &mut Rng, setting: &Setting) -> Vec<u8> {
    let slips = *rng.pick(&[&5, &10, &20, &40]);
    let pieces = small_script(rng, setting, slips);
    render_somehow(&pieces, rng)
}
