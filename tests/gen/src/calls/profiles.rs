//! What lists are made of: kinds of lists, and the shares of moves in each.

use super::list::List;
use super::moves::{self, Move};
use crate::rng::Rng;

pub struct Profile {
    pub longest: usize,
    moves: &'static [(usize, Move)],
}

const MIXED: Profile = Profile {
    longest: 120,
    moves: &[
        (10, moves::fresh),
        (20, moves::build),
        (16, moves::equate),
        (2, moves::equate_anything),
        (4, moves::demand),
        (3, moves::show),
        (1, moves::tally),
        (3, moves::mark),
        (3, moves::end_mark),
        (2, moves::knot),
        (1, moves::slip),
    ],
};

const ROWS: Profile = Profile {
    longest: 12,
    moves: &[
        (6, moves::rows_meet),
        (3, moves::rows_share),
        (5, moves::rows_cross),
        (4, moves::equate),
        (2, moves::mark),
        (2, moves::end_mark),
        (1, moves::slip),
    ],
};

const KNOTS: Profile = Profile {
    longest: 40,
    moves: &[
        (8, moves::knot),
        (6, moves::equate),
        (2, moves::build),
        (1, moves::double),
        (1, moves::mark),
        (1, moves::end_mark),
    ],
};

const CLASSES: Profile = Profile {
    longest: 120,
    moves: &[
        (6, moves::fresh),
        (8, moves::build),
        (14, moves::demand),
        (10, moves::equate),
        (4, moves::sets_meet),
        (2, moves::mark),
        (2, moves::end_mark),
        (1, moves::knot),
        (1, moves::slip),
    ],
};

const CROWDS: Profile = Profile {
    longest: 9,
    moves: &[(6, moves::crowd), (1, moves::mark), (1, moves::end_mark)],
};

const SLIPS: Profile = Profile {
    longest: 60,
    moves: &[
        (4, moves::slip),
        (3, moves::build),
        (3, moves::fresh),
        (2, moves::equate_anything),
        (1, moves::demand),
        (1, moves::many_marks),
        (1, moves::end_mark),
    ],
};

impl Profile {
    pub fn pick(rng: &mut Rng, rows: bool, classes: bool) -> &'static Profile {
        match (rng.below(10), rows, classes) {
            (0..=2, true, _) => &ROWS,
            (0, false, true) => &CROWDS,
            (0..=3, _, true) => &CLASSES,
            (4, ..) => &SLIPS,
            (5..=6, ..) => &KNOTS,
            _ => &MIXED,
        }
    }

    pub fn step(&self, list: &mut List) {
        let total = self.moves.iter().map(|(share, _)| share).sum();
        let mut draw = list.below(total);
        for (share, one) in self.moves {
            if draw < *share {
                return one(list);
            }
            draw -= share;
        }
    }
}
