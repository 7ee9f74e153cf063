//! Kinds of reading, and their octets.

/// The kinds of reading.
#[derive(Clone, Copy, PartialEq, Eq, Debug)]
pub enum Kind {
    Bearings,
    Lamps,
}

impl Kind {
    /// The letter that names the kind.
    pub const fn letter(self) -> u8 {
        match self {
            Kind::Bearings => b'B',
            Kind::Lamps => b'L',
        }
    }

    /// How many octets a reading takes.
    pub const fn width(self) -> usize {
        match self {
            Kind::Bearings => 2,
            Kind::Lamps => 3,
        }
    }
}

/// A reading of a kind.
pub trait Reading: Copy {
    const KIND: Kind;

    /// Writes the reading's octets, as many as the kind is wide.
    fn put(self, octets: &mut [u8]);

    /// The reading that octets of a cell are, which the library has checked.
    fn get(octets: &[u8]) -> Self;
}

/// A reading, or none.
pub type Cell<R> = Option<R>;

/// A direction in hundredths of a degree. Whole turns do not count.
#[derive(Clone, Copy, PartialEq, Eq, Debug)]
pub struct Bearing(pub u16);

impl Reading for Bearing {
    const KIND: Kind = Kind::Bearings;

    fn put(self, octets: &mut [u8]) {
        octets.copy_from_slice(&self.0.to_be_bytes());
    }

    fn get(octets: &[u8]) -> Bearing {
        Bearing(u16::from_be_bytes([octets[0], octets[1]]))
    }
}

/// What a lamp does. A period has 1 to 600 tenths of a second: the library finds any other strange.
#[derive(Clone, Copy, PartialEq, Eq, Debug)]
pub enum Lamp {
    Dark,
    Steady,
    Flashing(u16),
    Standby(u16),
}

impl Reading for Lamp {
    const KIND: Kind = Kind::Lamps;

    fn put(self, octets: &mut [u8]) {
        let (tag, period) = match self {
            Lamp::Dark => (0, 0),
            Lamp::Steady => (1, 0),
            Lamp::Flashing(period) => (2, period),
            Lamp::Standby(period) => (3, period),
        };
        octets[0] = tag;
        octets[1..].copy_from_slice(&period.to_be_bytes());
    }

    fn get(octets: &[u8]) -> Lamp {
        let period = u16::from_be_bytes([octets[1], octets[2]]);
        match octets[0] {
            0 => Lamp::Dark,
            1 => Lamp::Steady,
            2 => Lamp::Flashing(period),
            _ => Lamp::Standby(period),
        }
    }
}

/// The octets of cells, as in the body of a message.
pub(crate) fn put_cells<R: Reading>(cells: &[Cell<R>]) -> Vec<u8> {
    let wide = 1 + R::KIND.width();
    let mut octets = vec![0; cells.len() * wide];
    for (cell, item) in cells.iter().zip(octets.chunks_mut(wide)) {
        if let Some(reading) = cell {
            item[0] = 1;
            reading.put(&mut item[1..]);
        }
    }
    octets
}

/// The cell that octets are, which the library has checked.
pub(crate) fn get_cell<R: Reading>(octets: &[u8]) -> Cell<R> {
    (octets[0] == 1).then(|| R::get(&octets[1..]))
}
