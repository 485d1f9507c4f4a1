//! Pending pairs, worked off as a stack.

use super::cell::What;
use super::store::Store;

pub type Pair = (usize, usize);

pub enum Stop {
    Clash,
    Full,
}

impl Store {
    pub fn run(&mut self, pending: &mut Vec<Pair>) -> Result<(), Stop> {
        while let Some((a, b)) = pending.pop() {
            self.step(pending, a, b)?;
        }
        Ok(())
    }

    fn step(&mut self, pending: &mut Vec<Pair>, a: usize, b: usize) -> Result<(), Stop> {
        let (x, y) = (self.find(a), self.find(b));
        if x == y {
            return Ok(());
        }
        if self.cells[x].rank <= self.cells[y].rank {
            self.join(pending, x, y)
        } else {
            self.join(pending, y, x)
        }
    }

    fn join(&mut self, pending: &mut Vec<Pair>, from: usize, to: usize) -> Result<(), Stop> {
        match (self.cells[from].what, self.cells[to].what) {
            (What::Open, _) => self.link(from, to),
            (_, What::Open) => self.link(to, from),
            (What::Leaf(one), What::Leaf(other)) if one == other => {}
            (What::One(one, x), What::One(other, y)) if one == other => {
                self.link(from, to);
                pending.push((x, y));
            }
            (What::Two(x, y), What::Two(z, w)) => {
                self.link(from, to);
                pending.push((y, w));
                pending.push((x, z));
            }
            (What::Row(..), What::Row(..) | What::Leaf(_)) => {
                return self.join_rows(pending, from, to)
            }
            (What::Leaf(_), What::Row(..)) => return self.join_rows(pending, to, from),
            _ => return Err(Stop::Clash),
        }
        Ok(())
    }
}
