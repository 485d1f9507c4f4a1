//! What stands while a block of scripts is read: a pile and a sheet.

use crate::rng::Rng;
use crate::words::{BUILT_IN, BUILT_IN_CLASSED, LABELS};

#[derive(Clone, Debug)]
pub struct Setting {
    pub pile: &'static str,
    pub capacity: String,
    pub labels: Vec<String>,
}

const PILES: [&str; 4] = ["trees", "rows", "classtrees", "classrows"];
const CAPACITIES: [&str; 10] = [
    "16",
    "17",
    "512",
    "4095",
    "4096",
    "016",
    "0000000000000000000000000000004096",
    "20",
    "99",
    "1000",
];

impl Setting {
    pub fn random(rng: &mut Rng) -> Setting {
        let pile = rng.pick(&PILES);
        let pile = if rng.once_in(3) { "classrows" } else { pile };
        let capacity = rng.pick(&CAPACITIES).to_string();
        let count = *rng.pick(&[&0, &1, &2, &3, &3, &5, &12, &23, &24]);
        Setting {
            pile,
            capacity,
            labels: distinct_labels(rng, count),
        }
    }

    pub fn fixed(pile: &'static str, labels: &[&str]) -> Setting {
        let labels = labels.iter().map(|label| label.to_string()).collect();
        Setting {
            pile,
            capacity: "512".to_string(),
            labels,
        }
    }

    pub fn knows_records(&self) -> bool {
        self.pile.ends_with("rows")
    }

    pub fn built_in(&self) -> Vec<String> {
        let classed: &[&str] = if self.pile.starts_with("class") {
            &BUILT_IN_CLASSED
        } else {
            &[]
        };
        BUILT_IN
            .iter()
            .chain(classed)
            .map(|name| name.to_string())
            .collect()
    }

    pub fn lines(&self) -> [Vec<u8>; 2] {
        let pile = format!("pile {} {}", self.pile, self.capacity);
        let sheet = match self.labels.len() {
            0 => "sheet".to_string(),
            _ => format!("sheet {}", self.labels.join(" ")),
        };
        [pile.into_bytes(), sheet.into_bytes()]
    }
}

/// `count` labels, no two equal, in random order.
pub fn distinct_labels(rng: &mut Rng, count: usize) -> Vec<String> {
    let mut pool: Vec<&str> = LABELS.to_vec();
    (0..count)
        .map(|_| pool.swap_remove(rng.below(pool.len())).to_string())
        .collect()
}
