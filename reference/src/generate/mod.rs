//! Hostile inputs, each made from one number.

mod damage;
mod harbour;
mod lamphouse;
mod wire;

pub use harbour::{harbour, run_script, Shape};
pub use lamphouse::lamphouse;
pub use wire::wire;

use crate::harbour::Kind;
use crate::protocol::{Bearing, Lamp, Period};
use crate::random::Random;

/// Readings for generated inputs.
pub trait Generated: Kind {
    const LETTER: char;

    fn any(random: &mut Random) -> Self;

    /// A reading of the same meaning, now and then another one.
    fn alias(self, random: &mut Random) -> Self;
}

impl Generated for Bearing {
    const LETTER: char = 'B';

    fn any(random: &mut Random) -> Self {
        const EDGES: [u16; 12] = [
            0, 1, 255, 256, 1000, 29535, 29536, 35999, 36000, 36001, 37000, 65535,
        ];
        if random.chance(60) {
            Bearing(random.pick(&EDGES))
        } else {
            Bearing(random.below(65536) as u16)
        }
    }

    fn alias(self, random: &mut Random) -> Self {
        match self.0 {
            low @ 0..=29535 if random.chance(40) => Bearing(low + 36000),
            high @ 36000.. if random.chance(40) => Bearing(high - 36000),
            _ => self,
        }
    }
}

impl Generated for Lamp {
    const LETTER: char = 'L';

    fn any(random: &mut Random) -> Self {
        const EDGES: [usize; 8] = [1, 2, 35, 255, 256, 257, 599, 600];
        let tenths = if random.chance(70) {
            random.pick(&EDGES)
        } else {
            random.range(1, 600)
        };
        let period = Period::new(tenths).expect("1 to 600");
        match random.below(6) {
            0 => Lamp::Dark,
            1 => Lamp::Steady,
            2 | 3 => Lamp::Flashing(period),
            _ => Lamp::Standby(period),
        }
    }

    fn alias(self, _random: &mut Random) -> Self {
        self
    }
}

/// A number as a field, now and then with leading zeros.
fn number(random: &mut Random, number: usize) -> String {
    if random.below(200) == 0 {
        let width = random.range(2, 5);
        format!("{number:0width$}")
    } else {
        number.to_string()
    }
}

fn entry(random: &mut Random) -> String {
    let entry = match random.below(6) {
        0 => 0x0000,
        1 => 0xFFFF,
        2 => random.pick(&[0x0001, 0x8000, 0x00FF, 0xFF00, 0xAAAA, 0x5555]),
        _ => random.below(65536),
    };
    format!("{entry:04X}")
}
