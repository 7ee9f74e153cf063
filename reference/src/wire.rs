//! Messages: what a node sends in a step, as octets.

use crate::lines::{octets, print_octets};
use crate::protocol::{Bearing, Fault, Lamp, Reading, Refusal, LAST_STEP, MOST};
use std::io::Write;

#[derive(Clone, Debug, PartialEq, Eq)]
pub enum Content<R> {
    Poll(Vec<Option<R>>),
    Echo(Vec<Option<R>>),
    Bits(Vec<bool>),
    Final(Vec<bool>),
}

impl<R> Content<R> {
    pub fn letter(&self) -> u8 {
        match self {
            Content::Poll(_) => b'P',
            Content::Echo(_) => b'E',
            Content::Bits(_) => b'B',
            Content::Final(_) => b'F',
        }
    }

    /// How many cells or bits it has.
    pub fn count(&self) -> usize {
        match self {
            Content::Poll(cells) | Content::Echo(cells) => cells.len(),
            Content::Bits(bits) | Content::Final(bits) => bits.len(),
        }
    }
}

#[derive(Clone, Debug, PartialEq, Eq)]
pub struct Message<R> {
    pub step: usize,
    pub node: usize,
    pub content: Content<R>,
}

fn fault(refusal: Refusal, place: usize) -> Fault {
    Fault {
        refusal,
        layer: 2,
        place,
    }
}

fn check_size(n: usize, m: usize) -> Result<(), Fault> {
    if n == 0 || n > MOST || m == 0 || m > MOST {
        return Err(fault(Refusal::BadSize, 0));
    }
    Ok(())
}

fn check_node(n: usize, node: usize) -> Result<(), Fault> {
    if node >= n {
        return Err(fault(Refusal::NoNode, 3));
    }
    Ok(())
}

fn check_step(letter: u8, step: usize) -> Result<(), Fault> {
    let right = match letter {
        b'P' => step == 1,
        b'E' => step == 2,
        _ => (3..=LAST_STEP).contains(&step),
    };
    if !right {
        return Err(fault(Refusal::OutOfTurn, 1));
    }
    Ok(())
}

/// The length of a message with this letter.
pub fn length<R: Reading>(letter: u8, m: usize) -> usize {
    match letter {
        b'P' | b'E' => 5 + m * (1 + R::WIDTH),
        _ => 5 + m.div_ceil(8),
    }
}

fn read_cells<R: Reading>(body: &[u8]) -> Result<Vec<Option<R>>, Fault> {
    let mut cells = Vec::new();
    for (item, octets) in body.chunks_exact(1 + R::WIDTH).enumerate() {
        let place = 5 + item * (1 + R::WIDTH);
        match (octets[0], &octets[1..]) {
            (0, rest) if rest.iter().all(|&octet| octet == 0) => cells.push(None),
            (1, rest) => match R::read(rest) {
                Ok(reading) => cells.push(Some(reading)),
                Err(refusal) => {
                    return Err(Fault {
                        refusal,
                        layer: 1,
                        place,
                    })
                }
            },
            _ => return Err(fault(Refusal::StrangeReading, place)),
        }
    }
    Ok(cells)
}

fn read_bits(m: usize, body: &[u8]) -> Result<Vec<bool>, Fault> {
    let bit = |place: usize| body[place / 8] >> (place % 8) & 1 == 1;
    if (m..body.len() * 8).any(bit) {
        return Err(fault(Refusal::StrangeReading, 5 + body.len() - 1));
    }
    Ok((0..m).map(bit).collect())
}

/// Reads a message among n nodes and m items.
pub fn read<R: Reading>(n: usize, m: usize, octets: &[u8]) -> Result<Message<R>, Fault> {
    check_size(n, m)?;
    let &[letter, high, low, node, items, ref body @ ..] = octets else {
        return Err(fault(Refusal::Torn, octets.len()));
    };
    if !b"PEBF".contains(&letter) {
        return Err(fault(Refusal::StrangeLetter, 0));
    }
    if usize::from(items) != m || octets.len() != length::<R>(letter, m) {
        return Err(fault(Refusal::Torn, octets.len()));
    }
    let node = usize::from(node);
    check_node(n, node)?;
    let step = usize::from(u16::from_be_bytes([high, low]));
    check_step(letter, step)?;
    let content = match letter {
        b'P' => Content::Poll(read_cells(body)?),
        b'E' => Content::Echo(read_cells(body)?),
        b'B' => Content::Bits(read_bits(m, body)?),
        _ => Content::Final(read_bits(m, body)?),
    };
    Ok(Message {
        step,
        node,
        content,
    })
}

/// Writes a message at the front of a place. Gives its length.
pub fn write<R: Reading>(
    n: usize,
    m: usize,
    message: &Message<R>,
    place: &mut [u8],
) -> Result<usize, Fault> {
    let letter = message.content.letter();
    check_size(n, m)?;
    if message.content.count() != m {
        return Err(fault(Refusal::Torn, message.content.count()));
    }
    check_node(n, message.node)?;
    check_step(letter, message.step)?;
    let length = length::<R>(letter, m);
    let short = fault(Refusal::Short, 0);
    let place = place.get_mut(..length).ok_or(short)?;
    place.fill(0);
    place[0] = letter;
    place[1..3].copy_from_slice(&(message.step as u16).to_be_bytes());
    place[3] = message.node as u8;
    place[4] = m as u8;
    let body = &mut place[5..];
    match &message.content {
        Content::Poll(cells) | Content::Echo(cells) => {
            for (octets, cell) in body.chunks_exact_mut(1 + R::WIDTH).zip(cells) {
                if let Some(reading) = cell {
                    octets[0] = 1;
                    reading.write(&mut octets[1..]).map_err(|_| short)?;
                }
            }
        }
        Content::Bits(bits) | Content::Final(bits) => {
            for (item, &bit) in bits.iter().enumerate() {
                body[item / 8] |= u8::from(bit) << (item % 8);
            }
        }
    }
    Ok(length)
}

fn print_cells<R: Reading>(cells: &[Option<R>], out: &mut Vec<u8>) {
    for cell in cells {
        out.push(b' ');
        match cell {
            None => out.push(b'-'),
            Some(reading) => {
                let mut octets = [0; 8];
                reading
                    .write(&mut octets)
                    .expect("no reading is wider than 8 octets");
                print_octets(&octets[..R::WIDTH], out);
            }
        }
    }
}

fn print_read<R: Reading>(number: usize, n: usize, m: usize, octets: &[u8], out: &mut Vec<u8>) {
    match read::<R>(n, m, octets) {
        Ok(Message {
            step,
            node,
            content,
        }) => {
            let letter = char::from(content.letter());
            write!(out, "{number} ok {letter} {step} {node}").expect("a Vec takes all");
            match &content {
                Content::Poll(cells) | Content::Echo(cells) => print_cells(cells, out),
                Content::Bits(bits) | Content::Final(bits) => {
                    for &bit in bits {
                        out.extend_from_slice(if bit { b" 1" } else { b" 0" });
                    }
                }
            }
            out.push(b'\n');
        }
        Err(Fault {
            refusal,
            layer,
            place,
        }) => {
            let refusal = refusal.number();
            writeln!(out, "{number} fault {refusal} {layer} {place}").expect("a Vec takes all");
        }
    }
}

/// The parts of a line `KIND n m HEX`.
fn asked(line: &[u8]) -> Option<(bool, usize, usize, Vec<u8>)> {
    let line = std::str::from_utf8(line).ok()?;
    let fields: Vec<&str> = line.split(' ').collect();
    let &[kind, n, m, digits] = &fields[..] else {
        return None;
    };
    let bearings = match kind {
        "B" => true,
        "L" => false,
        _ => return None,
    };
    let octets = if digits == "-" {
        Vec::new()
    } else {
        octets(digits.as_bytes())?
    };
    Some((bearings, n.parse().ok()?, m.parse().ok()?, octets))
}

/// Reads one message a line; the lines are expected to be well-formed.
pub fn read_lines(input: &[u8]) -> Vec<u8> {
    let mut out = Vec::new();
    for (index, line) in input.split_inclusive(|&octet| octet == b'\n').enumerate() {
        match asked(line.strip_suffix(b"\n").unwrap_or(line)) {
            Some((true, n, m, octets)) => print_read::<Bearing>(index + 1, n, m, &octets, &mut out),
            Some((false, n, m, octets)) => print_read::<Lamp>(index + 1, n, m, &octets, &mut out),
            None => writeln!(out, "{} malformed", index + 1).expect("a Vec takes all"),
        }
    }
    out
}
