//! Coins: a bit for a node, a round and an item.

use super::Refusal;

pub trait Coin {
    fn toss(&self, node: usize, round: usize, item: usize) -> bool;
}

/// Every coin tosses 0 for round 0 and for an item above 15.
fn in_play(round: usize, item: usize) -> bool {
    round > 0 && item <= 15
}

/// A bit of an entry for each round; the entries come round again.
#[derive(Clone, Debug, PartialEq, Eq)]
pub struct Strip {
    entries: Vec<u16>,
}

impl Strip {
    pub fn new(entries: Vec<u16>) -> Result<Strip, Refusal> {
        if entries.is_empty() || entries.len() > 1024 {
            return Err(Refusal::Short);
        }
        Ok(Strip { entries })
    }
}

impl Coin for Strip {
    fn toss(&self, _node: usize, round: usize, item: usize) -> bool {
        in_play(round, item) && self.entries[(round - 1) % self.entries.len()] >> item & 1 == 1
    }
}

/// A parity of the bits of a seed.
#[derive(Clone, Copy, Debug, PartialEq, Eq)]
pub struct Seeded(pub u64);

impl Coin for Seeded {
    fn toss(&self, _node: usize, round: usize, item: usize) -> bool {
        let place = (round as u64)
            .wrapping_mul(16)
            .wrapping_add(item as u64)
            .wrapping_add(1);
        let q = place.wrapping_mul(0x9E37_79B9_7F4A_7C15);
        in_play(round, item) && (self.0 & q).count_ones() % 2 == 1
    }
}

/// The opposite of another coin at odd nodes.
#[derive(Clone, Copy, Debug, PartialEq, Eq)]
pub struct Crossed<C>(pub C);

impl<C: Coin> Coin for Crossed<C> {
    fn toss(&self, node: usize, round: usize, item: usize) -> bool {
        in_play(round, item) && self.0.toss(node, round, item) ^ (node % 2 == 1)
    }
}
