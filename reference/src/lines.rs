//! What holds for the lines of all programs.

/// A line of the input. Of a line above the limit only a front part is kept.
#[derive(Clone, Copy, Debug, PartialEq, Eq)]
pub struct Line<'a> {
    pub number: u64,
    pub octets: &'a [u8],
    pub length: usize,
}

/// Parts an input that comes in chunks into lines.
#[derive(Clone, Debug)]
pub struct Splitter {
    limit: usize,
    number: u64,
    /// The front part of a line that has not ended.
    held: Vec<u8>,
    /// The whole length of that line so far.
    length: usize,
}

impl Splitter {
    pub fn new(limit: usize) -> Splitter {
        Splitter {
            limit,
            number: 0,
            held: Vec::new(),
            length: 0,
        }
    }

    pub fn feed(&mut self, mut chunk: &[u8], mut each: impl FnMut(Line)) {
        while let Some(end) = chunk.iter().position(|&octet| octet == b'\n') {
            let front = &chunk[..end];
            chunk = &chunk[end + 1..];
            self.number += 1;
            if self.length == 0 {
                each(Line {
                    number: self.number,
                    octets: front,
                    length: end,
                });
            } else {
                self.hold(front);
                each(Line {
                    number: self.number,
                    octets: &self.held,
                    length: self.length,
                });
                self.held.clear();
                self.length = 0;
            }
        }
        self.hold(chunk);
    }

    /// The end of the input: a last line without octet 10 counts.
    pub fn finish(&mut self, mut each: impl FnMut(Line)) {
        if self.length > 0 {
            self.number += 1;
            each(Line {
                number: self.number,
                octets: &self.held,
                length: self.length,
            });
            self.held.clear();
            self.length = 0;
        }
    }

    fn hold(&mut self, part: &[u8]) {
        let room = self.limit.saturating_sub(self.held.len());
        self.held.extend_from_slice(&part[..part.len().min(room)]);
        self.length += part.len();
    }
}

/// A field and where it begins in its line.
#[derive(Clone, Copy, Debug, Default, PartialEq, Eq)]
pub struct Field<'a> {
    pub place: usize,
    pub octets: &'a [u8],
}

/// The first fields of a line, and how many there are in all.
pub fn fields<const MOST: usize>(line: &[u8]) -> ([Field<'_>; MOST], usize) {
    let mut fields = [Field::default(); MOST];
    let mut count = 0;
    let mut place = 0;
    for octets in line.split(|&octet| octet == b' ') {
        if count < MOST {
            fields[count] = Field { place, octets };
        }
        place += octets.len() + 1;
        count += 1;
    }
    (fields, count)
}

/// A number of one to five digits.
pub fn number(octets: &[u8]) -> Option<usize> {
    if octets.is_empty() || octets.len() > 5 {
        return None;
    }
    octets.iter().try_fold(0, |number, &octet| {
        octet
            .is_ascii_digit()
            .then(|| number * 10 + usize::from(octet - b'0'))
    })
}

/// A number of hexadecimal digits, as many as there are.
fn hexadecimal(octets: &[u8]) -> Option<u32> {
    octets.iter().try_fold(0, |number, &octet| {
        let digit = match octet {
            b'0'..=b'9' => octet - b'0',
            b'A'..=b'F' => octet - b'A' + 10,
            _ => return None,
        };
        Some(number << 4 | u32::from(digit))
    })
}

/// A strip entry of four hexadecimal digits.
pub fn entry(octets: &[u8]) -> Option<u16> {
    if octets.len() != 4 {
        return None;
    }
    hexadecimal(octets).map(|number| number as u16)
}

/// Octets, two hexadecimal digits each.
pub fn octets(digits: &[u8]) -> Option<Vec<u8>> {
    if digits.len() % 2 == 1 {
        return None;
    }
    digits
        .chunks_exact(2)
        .map(|pair| hexadecimal(pair).map(|number| number as u8))
        .collect()
}

/// Prints octets, two hexadecimal digits each.
pub fn print_octets(octets: &[u8], out: &mut Vec<u8>) {
    const DIGITS: &[u8; 16] = b"0123456789ABCDEF";
    for &octet in octets {
        out.push(DIGITS[usize::from(octet >> 4)]);
        out.push(DIGITS[usize::from(octet & 15)]);
    }
}
