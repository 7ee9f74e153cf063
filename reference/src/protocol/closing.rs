//! One node's closing of one item.

use super::{Coin, Reading, Refusal};

/// The greatest number of nodes and of items.
pub const MOST: usize = 16;

pub const LAST_STEP: usize = 302;

pub fn quorum(n: usize) -> usize {
    2 * n / 3 + 1
}

pub fn weak_quorum(n: usize) -> usize {
    n / 3 + 1
}

#[derive(Clone, Copy, Debug, PartialEq, Eq)]
pub enum Phase {
    Poll,
    Echo,
    ToZero,
    ToOne,
    Toss,
}

impl Phase {
    pub fn of(step: usize) -> Option<Phase> {
        match step {
            1 => Some(Phase::Poll),
            2 => Some(Phase::Echo),
            3..=LAST_STEP => Some(match step % 3 {
                0 => Phase::ToZero,
                1 => Phase::ToOne,
                _ => Phase::Toss,
            }),
            _ => None,
        }
    }
}

/// The cell of the lowest node whose meaning comes from so many nodes.
fn leading<R: Reading>(heard: &[Option<R>], needed: usize) -> Option<R> {
    let readings = || heard.iter().flatten().copied();
    readings().find(|&reading| readings().filter(|&other| other.same(reading)).count() >= needed)
}

/// Step 1, on what was heard from each of the n nodes.
pub fn close_poll<R: Reading>(heard: &[Option<R>]) -> Option<R> {
    leading(heard, quorum(heard.len()))
}

/// Step 2: the value and its grade.
pub fn close_echo<R: Reading>(heard: &[Option<R>]) -> (Option<R>, u8) {
    let n = heard.len();
    if let Some(reading) = leading(heard, quorum(n)) {
        (Some(reading), 2)
    } else if let Some(reading) = leading(heard, weak_quorum(n)) {
        (Some(reading), 1)
    } else {
        (None, 0)
    }
}

/// A step of bits, by the number of zeros and ones heard: the bit and whether it is decided.
pub fn close_bits(
    phase: Phase,
    n: usize,
    zeros: usize,
    ones: usize,
    toss: impl FnOnce() -> bool,
) -> (bool, bool) {
    let needed = quorum(n);
    if zeros >= needed {
        (false, phase == Phase::ToZero)
    } else if ones >= needed {
        (true, phase == Phase::ToOne)
    } else {
        let bit = match phase {
            Phase::ToZero => false,
            Phase::ToOne => true,
            _ => toss(),
        };
        (bit, false)
    }
}

#[derive(Clone, Copy, Debug, PartialEq, Eq)]
pub enum Closed<R> {
    Polled {
        value: Option<R>,
    },
    Graded {
        value: Option<R>,
        grade: u8,
        bit: bool,
    },
    Voted {
        bit: bool,
        decided: bool,
    },
}

/// What `close_item` is told besides the coin and what was heard.
#[derive(Clone, Copy, Debug, PartialEq, Eq)]
pub struct Place {
    pub n: usize,
    pub node: usize,
    pub step: usize,
    pub item: usize,
    pub bit: usize,
    pub decided: bool,
}

/// Closes one item at one node. Marks: 2 is bit 0, 3 is bit 1, all others nothing.
pub fn close_item<R: Reading>(
    place: Place,
    coin: &impl Coin,
    cells: &[Option<R>],
    marks: &[u8],
) -> Result<Closed<R>, Refusal> {
    let Place {
        n,
        node,
        step,
        item,
        bit,
        decided,
    } = place;
    let phase = Phase::of(step);
    if n == 0 || n > MOST {
        return Err(Refusal::BadSize);
    }
    let short = match phase {
        Some(Phase::Poll | Phase::Echo) => cells.len() < n,
        Some(_) => marks.len() < n,
        None => false,
    };
    if short {
        return Err(Refusal::Short);
    }
    if node >= n {
        return Err(Refusal::NoNode);
    }
    if item > 15 {
        return Err(Refusal::NoItem);
    }
    if bit > 1 {
        return Err(Refusal::WrongPhase);
    }
    match phase {
        None => Err(Refusal::Over),
        Some(Phase::Poll) => Ok(Closed::Polled {
            value: close_poll(&cells[..n]),
        }),
        Some(Phase::Echo) => {
            let (value, grade) = close_echo(&cells[..n]);
            Ok(Closed::Graded {
                value,
                grade,
                bit: grade != 2,
            })
        }
        Some(_) if decided => Ok(Closed::Voted {
            bit: bit == 1,
            decided: true,
        }),
        Some(phase) => {
            let heard = |mark| marks[..n].iter().filter(|&&octet| octet == mark).count();
            let toss = || coin.toss(node, step / 3, item);
            let (bit, decided) = close_bits(phase, n, heard(2), heard(3), toss);
            Ok(Closed::Voted { bit, decided })
        }
    }
}
