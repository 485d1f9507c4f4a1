//! Puts an input together. Scripts come in blocks; each block has its own pile
//! and sheet. Block and script are made from the seed and their numbers alone.

use crate::kinds;
use crate::lines;
use crate::rng::Rng;
use crate::setting::Setting;

const SCRIPTS_IN_A_BLOCK: u64 = 40;

/// Streams of random numbers, so that settings, scripts and other lines do not
/// depend on each other.
const SETTINGS: u64 = 1;
const SCRIPTS: u64 = 2;
const OTHERS: u64 = 3;

fn setting(seed: u64, block: u64) -> Setting {
    Setting::random(&mut Rng::new(seed, SETTINGS, block))
}

fn read_line(script: &[u8]) -> Vec<u8> {
    [b"read ", script].concat()
}

fn script_line(seed: u64, index: u64) -> Vec<u8> {
    let setting = setting(seed, index / SCRIPTS_IN_A_BLOCK);
    let mut rng = Rng::new(seed, SCRIPTS, index);
    let script = kinds::script(&mut rng, &setting);
    if script.is_empty() && rng.once_in(2) {
        return b"read".to_vec();
    }
    read_line(&script)
}

/// The lines in front of a block: refused ones, then its pile and sheet.
fn opening(seed: u64, block: u64) -> Vec<Vec<u8>> {
    let mut rng = Rng::new(seed, OTHERS, block);
    let [pile, sheet] = setting(seed, block).lines();
    let read = || b"read 1".to_vec();
    let mut before = match rng.below(8) {
        0 => vec![lines::bad_pile(&mut rng), b"sheet la".to_vec(), read()],
        1 => vec![pile.clone(), lines::bad_sheet(&mut rng), read()],
        2 => vec![pile.clone(), read(), lines::idle(&mut rng)],
        3 => vec![
            pile.clone(),
            b"sheet ".to_vec(),
            lines::bad_sheet(&mut rng),
            read(),
            sheet.clone(),
        ],
        4 => vec![
            pile.clone(),
            sheet.clone(),
            lines::bad_pile(&mut rng),
            read(),
        ],
        _ => vec![],
    };
    before.extend([pile, sheet]);
    before
}

/// All lines of an input with `count` scripts.
pub fn input(seed: u64, count: u64) -> Vec<Vec<u8>> {
    let mut all = Vec::new();
    for index in 0..count {
        if index % SCRIPTS_IN_A_BLOCK == 0 {
            all.extend(opening(seed, index / SCRIPTS_IN_A_BLOCK));
        }
        let mut rng = Rng::new(seed, OTHERS, u64::MAX - index);
        if rng.once_in(30) {
            all.push(lines::idle(&mut rng));
        }
        all.push(script_line(seed, index));
    }
    all
}

/// One script of an input, with the pile and the sheet it is read with.
pub fn single(seed: u64, index: u64) -> Vec<Vec<u8>> {
    let mut all: Vec<Vec<u8>> = setting(seed, index / SCRIPTS_IN_A_BLOCK).lines().to_vec();
    all.push(script_line(seed, index));
    all
}
