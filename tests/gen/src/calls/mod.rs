//! Lists of calls for bare systems. Each list has its own pile; a list is made
//! from the seed and its number alone.

mod list;
mod moves;
pub mod pairs;
mod profiles;

use crate::rng::Rng;
use list::List;
use profiles::Profile;

const STREAM: u64 = 4;
const CAPACITIES: [usize; 12] = [16, 17, 40, 41, 100, 250, 512, 512, 4096, 4096, 4096, 4095];

/// Lists for these piles, each behind its own pile line, until there are `count`
/// lines.
pub fn input(seed: u64, count: usize, piles: &str) -> Vec<Vec<u8>> {
    let piles: Vec<&str> = piles.split(',').collect();
    let mut all = Vec::new();
    let mut index = 0;
    while all.len() < count {
        let pile = piles[index as usize % piles.len()];
        all.extend(list(seed, index, pile));
        index += 1;
    }
    all
}

fn list(seed: u64, index: u64, pile: &str) -> Vec<Vec<u8>> {
    let mut rng = Rng::new(seed, STREAM, index);
    let rows = pile.ends_with("rows");
    let classes = pile.starts_with("class");
    let profile = Profile::pick(&mut rng, rows, classes);
    let capacity = *rng.pick_one(&CAPACITIES);
    let mut list = List::new(rng, pile, rows, classes, capacity);
    for _ in 0..list.between(1, profile.longest) {
        profile.step(&mut list);
    }
    list.lines.into_iter().map(String::into_bytes).collect()
}
