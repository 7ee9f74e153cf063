//! Kinds of reading.

use super::Refusal;
use std::fmt::Debug;

pub trait Reading: Copy + Eq + Debug {
    /// How many octets a reading takes.
    const WIDTH: usize;

    fn meaning(self) -> u32;

    fn same(self, other: Self) -> bool {
        self.meaning() == other.meaning()
    }

    /// Writes the reading at the front of the place.
    fn write(self, place: &mut [u8]) -> Result<(), Refusal>;

    fn read(octets: &[u8]) -> Result<Self, Refusal>;
}

/// Hundredths of a degree.
#[derive(Clone, Copy, Debug, PartialEq, Eq)]
pub struct Bearing(pub u16);

impl Reading for Bearing {
    const WIDTH: usize = 2;

    fn meaning(self) -> u32 {
        u32::from(self.0) % 36000
    }

    fn write(self, place: &mut [u8]) -> Result<(), Refusal> {
        let place = place.get_mut(..2).ok_or(Refusal::Short)?;
        place.copy_from_slice(&self.0.to_be_bytes());
        Ok(())
    }

    fn read(octets: &[u8]) -> Result<Self, Refusal> {
        match *octets {
            [high, low] => Ok(Bearing(u16::from_be_bytes([high, low]))),
            _ => Err(Refusal::StrangeReading),
        }
    }
}

/// A period of 1 to 600 tenths of a second.
#[derive(Clone, Copy, Debug, PartialEq, Eq)]
pub struct Period(u16);

impl Period {
    pub fn new(tenths: usize) -> Option<Period> {
        (1..=600).contains(&tenths).then_some(Period(tenths as u16))
    }

    pub fn tenths(self) -> u16 {
        self.0
    }
}

#[derive(Clone, Copy, Debug, PartialEq, Eq)]
pub enum Lamp {
    Dark,
    Steady,
    Flashing(Period),
    Standby(Period),
}

impl Reading for Lamp {
    const WIDTH: usize = 3;

    fn meaning(self) -> u32 {
        match self {
            Lamp::Dark => 0,
            Lamp::Steady => 1,
            Lamp::Flashing(period) => 1000 + u32::from(period.0),
            Lamp::Standby(period) => 2000 + u32::from(period.0),
        }
    }

    fn write(self, place: &mut [u8]) -> Result<(), Refusal> {
        let place = place.get_mut(..3).ok_or(Refusal::Short)?;
        let (first, period) = match self {
            Lamp::Dark => (0, 0),
            Lamp::Steady => (1, 0),
            Lamp::Flashing(period) => (2, period.0),
            Lamp::Standby(period) => (3, period.0),
        };
        place[0] = first;
        place[1..].copy_from_slice(&period.to_be_bytes());
        Ok(())
    }

    fn read(octets: &[u8]) -> Result<Self, Refusal> {
        let &[first, high, low] = octets else {
            return Err(Refusal::StrangeReading);
        };
        let tenths = u16::from_be_bytes([high, low]);
        match (first, tenths, Period::new(tenths.into())) {
            (0, 0, _) => Ok(Lamp::Dark),
            (1, 0, _) => Ok(Lamp::Steady),
            (2, _, Some(period)) => Ok(Lamp::Flashing(period)),
            (3, _, Some(period)) => Ok(Lamp::Standby(period)),
            _ => Err(Refusal::StrangeReading),
        }
    }
}
