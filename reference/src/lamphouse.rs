//! The program `lamphouse`: one closing a line.

use crate::lines::{entry, fields, number, octets, print_octets, Field, Line, Splitter};
use crate::protocol::{close_item, Bearing, Closed, Lamp, Place, Reading, Refusal, Strip};
use std::io::Write;

/// The longest line.
pub const LIMIT: usize = 200;

fn entries(field: Field) -> Option<Vec<u16>> {
    if field.octets == b"-" {
        return Some(Vec::new());
    }
    let entries: Vec<u16> = field
        .octets
        .split(|&octet| octet == b',')
        .map(entry)
        .collect::<Option<_>>()?;
    (entries.len() <= 8).then_some(entries)
}

fn cell<R: Reading>(field: Field) -> Option<Option<R>> {
    if field.octets == b"-" {
        return Some(None);
    }
    R::read(&octets(field.octets)?).ok().map(Some)
}

fn mark(field: Field) -> Option<u8> {
    match octets(field.octets)?[..] {
        [mark] => Some(mark),
        _ => None,
    }
}

/// The closing that the fields ask for.
fn close<R: Reading>(fields: &[Field]) -> Result<Closed<R>, Refusal> {
    let number = |index: usize| number(fields[index].octets).ok_or(Refusal::StrangeReading);
    let mut place = Place {
        n: number(1)?,
        node: number(2)?,
        step: number(3)?,
        item: number(4)?,
        bit: number(5)?,
        decided: false,
    };
    place.decided = match number(6)? {
        0 => false,
        1 => true,
        _ => return Err(Refusal::StrangeReading),
    };
    let entries = entries(fields[7]).ok_or(Refusal::StrangeReading)?;
    let mut cells = Vec::new();
    let mut marks = Vec::new();
    for &field in &fields[8..] {
        if place.step == 1 || place.step == 2 {
            cells.push(cell(field).ok_or(Refusal::StrangeReading)?);
        } else {
            marks.push(mark(field).ok_or(Refusal::StrangeReading)?);
        }
    }
    close_item(place, &Strip::new(entries)?, &cells, &marks)
}

fn print_value<R: Reading>(value: Option<R>, out: &mut Vec<u8>) {
    match value {
        None => out.push(b'-'),
        Some(reading) => {
            let mut octets = [0; 8];
            reading
                .write(&mut octets)
                .expect("no reading is wider than 8 octets");
            print_octets(&octets[..R::WIDTH], out);
        }
    }
}

fn answer_kind<R: Reading>(line: Line, fields: &[Field], out: &mut Vec<u8>) -> Result<(), Refusal> {
    match close::<R>(fields)? {
        Closed::Polled { value } => {
            write!(out, "{} value ", line.number).expect("a Vec takes all");
            print_value(value, out);
            out.push(b'\n');
        }
        Closed::Graded { value, grade, bit } => {
            write!(out, "{} value ", line.number).expect("a Vec takes all");
            print_value(value, out);
            writeln!(out, " grade {grade} bit {}", u8::from(bit)).expect("a Vec takes all");
        }
        Closed::Voted { bit, decided } => {
            let word = if decided { "decided" } else { "undecided" };
            writeln!(out, "{} bit {} {word}", line.number, u8::from(bit)).expect("a Vec takes all");
        }
    }
    Ok(())
}

fn answer_line(line: Line, out: &mut Vec<u8>) -> Result<(), Refusal> {
    if line.length == 0 || line.length > LIMIT {
        return Err(Refusal::Torn);
    }
    let (fields, count) = fields::<24>(line.octets);
    let bearings = match fields[0].octets {
        b"B" => true,
        b"L" => false,
        _ => return Err(Refusal::StrangeLetter),
    };
    if !(8..=24).contains(&count) {
        return Err(Refusal::Torn);
    }
    if bearings {
        answer_kind::<Bearing>(line, &fields[..count], out)
    } else {
        answer_kind::<Lamp>(line, &fields[..count], out)
    }
}

fn answer(line: Line, out: &mut Vec<u8>) {
    if let Err(refusal) = answer_line(line, out) {
        writeln!(out, "{} refused {}", line.number, refusal.number()).expect("a Vec takes all");
    }
}

/// The program, fed with chunks of its input.
#[derive(Clone, Debug)]
pub struct Lamphouse {
    splitter: Splitter,
}

impl Default for Lamphouse {
    fn default() -> Lamphouse {
        Lamphouse::new()
    }
}

impl Lamphouse {
    pub fn new() -> Lamphouse {
        Lamphouse {
            splitter: Splitter::new(LIMIT),
        }
    }

    pub fn feed(&mut self, chunk: &[u8], out: &mut Vec<u8>) {
        self.splitter.feed(chunk, |line| answer(line, out));
    }

    pub fn finish(&mut self, out: &mut Vec<u8>) {
        self.splitter.finish(|line| answer(line, out));
    }
}

/// The whole program: octets in, octets out.
pub fn lamphouse(input: &[u8]) -> Vec<u8> {
    let mut out = Vec::new();
    let mut lamphouse = Lamphouse::new();
    lamphouse.feed(input, &mut out);
    lamphouse.finish(&mut out);
    out
}
