//! Damage to one line.

use crate::random::Random;

const EDGES: [&str; 40] = [
    "0", "1", "2", "3", "9", "15", "16", "17", "31", "32", "127", "128", "255", "256", "257",
    "302", "303", "512", "4096", "9999", "10000", "32768", "65535", "65536", "65537", "65552",
    "99999", "100000", "000000", "00000", "00001", "000001", "-1", "+1", "0x1", "1.0", "", "-",
    "--", "A",
];

pub const READINGS: [&str; 44] = [
    "D", "S", "F1", "F600", "F601", "T0", "T1", "T600", "T601", "F0", "F", "T", "D0", "S1", "DD",
    "d", "s", "f35", "t35", "F35", "T35", "F0600", "F00600", "F000600", "F00001", "F000001", "F-1",
    "F65536", "F65537", "F99999", "F35D", "-", "--", "-0", "0", "35999", "36000", "37000", "65535",
    "65536", "99999", "065535", "B", "L",
];

pub const ENTRIES: [&str; 12] = [
    "0000", "FFFF", "ffff", "00ff", "000", "00000", "000G", "0x00", "-", "", "FFF", "10000",
];

const OCTETS: [u8; 16] = [
    0, 9, 13, 255, b' ', b'-', b',', b'0', b'9', b'A', b'F', b'G', b'/', b':', b'@', 160,
];

const LETTERS: [u8; 12] = *b"NXITOSBWCLZA";

fn parts(line: &[u8]) -> Vec<Vec<u8>> {
    line.split(|&octet| octet == b' ')
        .map(<[u8]>::to_vec)
        .collect()
}

/// Puts other octets in place of a field, mostly not the first.
fn replace(random: &mut Random, line: &mut Vec<u8>, by: &[u8]) {
    let mut fields = parts(line);
    let index = if fields.len() > 1 && random.chance(90) {
        random.range(1, fields.len() - 1)
    } else {
        random.below(fields.len())
    };
    fields[index] = by.to_vec();
    *line = fields.join(&b' ');
}

/// Stretches a field with leading zeros.
fn stretch(random: &mut Random, line: &mut Vec<u8>, width: usize) {
    let mut fields = parts(line);
    let index = random.below(fields.len());
    while fields[index].len() < width {
        fields[index].insert(0, b'0');
    }
    *line = fields.join(&b' ');
}

/// Lengthens a line to just so many octets.
fn lengthen(random: &mut Random, line: &mut Vec<u8>, length: usize) {
    let missing = length.saturating_sub(line.len());
    if random.chance(50) {
        let field = line
            .iter()
            .rposition(|&octet| octet == b' ')
            .map_or(0, |space| space + 1);
        line.splice(field..field, vec![b'0'; missing]);
    } else {
        let filler = random.pick(b" 0AX\r\0\xff");
        line.extend(vec![filler; missing]);
    }
}

/// Damages a line of a program whose lines have so many octets at most.
pub fn damage(random: &mut Random, line: &mut Vec<u8>, limit: usize) {
    let spaces: Vec<usize> = (0..line.len())
        .filter(|&place| line[place] == b' ')
        .collect();
    let place = random.below(line.len() + 1);
    match random.below(32) {
        0 if !spaces.is_empty() => line.insert(random.pick(&spaces), b' '),
        0 | 1 => line.push(b' '),
        2 => line.insert(0, b' '),
        3 if !line.is_empty() => line[0] = random.pick(&LETTERS),
        4 if !line.is_empty() => line[0] = random.pick(&OCTETS),
        5 if !line.is_empty() => line.insert(0, line[0]),
        6 => line.push(b'\r'),
        7 => line.insert(line.len().min(1), random.pick(&OCTETS)),
        8 | 9 => line.insert(place, random.pick(&OCTETS)),
        10 if place < line.len() => line[place] = random.pick(&OCTETS),
        11 if place < line.len() => {
            line.remove(place);
        }
        12 => {
            let mut fields = parts(line);
            fields.remove(random.below(fields.len()));
            *line = fields.join(&b' ');
        }
        13 => {
            let mut fields = parts(line);
            fields.insert(
                random.range(1, fields.len()),
                random.pick(&EDGES).as_bytes().to_vec(),
            );
            *line = fields.join(&b' ');
        }
        14 => {
            let mut fields = parts(line);
            let (one, other) = (random.below(fields.len()), random.below(fields.len()));
            fields.swap(one, other);
            *line = fields.join(&b' ');
        }
        15..=18 => {
            let edge = random.pick(&EDGES);
            replace(random, line, edge.as_bytes());
        }
        19 | 20 => {
            let reading = random.pick(&READINGS);
            replace(random, line, reading.as_bytes());
        }
        21 => {
            let entry = random.pick(&ENTRIES);
            replace(random, line, entry.as_bytes());
        }
        22 => stretch(random, line, 5),
        23 => stretch(random, line, 6),
        24 => line.make_ascii_lowercase(),
        25 => line.clear(),
        26 => lengthen(random, line, limit),
        27 => lengthen(random, line, limit + 1),
        28 => {
            let length = match random.below(8) {
                0 => random.range(1000, 9000),
                1 => 256 * random.range(1, 8) + random.below(limit),
                _ => random.range(limit + 1, 3 * limit),
            };
            lengthen(random, line, length);
        }
        29 => line.truncate(place),
        30 if place < line.len() => line[place] ^= 1 << random.below(8),
        31 => {
            let length = random.range(1, 2 * limit);
            *line = (0..length).map(|_| random.draw() as u8).collect();
        }
        _ => line.push(b'\n'),
    }
}
