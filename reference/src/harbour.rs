//! The program `harbour`: a whole run, one call a line.

use crate::lines::{entry, fields, number, Field, Line, Splitter};
use crate::protocol::{
    Bearing, Decision, Fault, Instance, Lamp, Outcome, Period, Reading, Refusal, Setup, Strip,
};
use std::io::Write;
use std::mem;

/// The longest line.
pub const LIMIT: usize = 60;

/// A kind of reading as a field of a line.
pub trait Kind: Reading {
    fn from_field(octets: &[u8]) -> Option<Self>;
    fn print(self, out: &mut Vec<u8>);
}

impl Kind for Bearing {
    fn from_field(octets: &[u8]) -> Option<Self> {
        number(octets)?.try_into().ok().map(Bearing)
    }

    fn print(self, out: &mut Vec<u8>) {
        print_number(self.0.into(), out);
    }
}

impl Kind for Lamp {
    fn from_field(octets: &[u8]) -> Option<Self> {
        let period = |digits| number(digits).and_then(Period::new);
        match octets {
            b"D" => Some(Lamp::Dark),
            b"S" => Some(Lamp::Steady),
            [b'F', digits @ ..] => period(digits).map(Lamp::Flashing),
            [b'T', digits @ ..] => period(digits).map(Lamp::Standby),
            _ => None,
        }
    }

    fn print(self, out: &mut Vec<u8>) {
        match self {
            Lamp::Dark => out.push(b'D'),
            Lamp::Steady => out.push(b'S'),
            Lamp::Flashing(period) => {
                out.push(b'F');
                print_number(period.tenths().into(), out);
            }
            Lamp::Standby(period) => {
                out.push(b'T');
                print_number(period.tenths().into(), out);
            }
        }
    }
}

fn print_number(number: u64, out: &mut Vec<u8>) {
    write!(out, "{number}").expect("a Vec takes all");
}

fn print_decision<R: Kind>(decision: Decision<R>, out: &mut Vec<u8>) {
    match decision {
        Decision::Undecided => out.extend_from_slice(b"open"),
        Decision::Decided(None) => out.push(b'-'),
        Decision::Decided(Some(reading)) => reading.print(out),
    }
}

/// Why a line is refused: by its form or turn, or by its call.
#[derive(Clone, Copy, Debug, PartialEq, Eq)]
pub enum Refused {
    Line(Fault),
    Call(Refusal),
}

impl Refused {
    pub fn number(self) -> u8 {
        match self {
            Refused::Line(fault) => fault.refusal.number(),
            Refused::Call(refusal) => refusal.number(),
        }
    }
}

impl From<Fault> for Refused {
    fn from(fault: Fault) -> Refused {
        Refused::Line(fault)
    }
}

impl From<Refusal> for Refused {
    fn from(refusal: Refusal) -> Refused {
        Refused::Call(refusal)
    }
}

fn fault(refusal: Refusal, place: usize) -> Fault {
    Fault {
        refusal,
        layer: 3,
        place,
    }
}

#[derive(Clone, Copy, Debug, PartialEq, Eq)]
enum KindLetter {
    Bearings,
    Lamps,
}

/// A line after N, read.
#[derive(Clone, Debug, PartialEq, Eq)]
enum Command<R> {
    New,
    MarkFaulty {
        node: usize,
    },
    Propose {
        node: usize,
        item: usize,
        cell: Option<R>,
    },
    SetStrip(Vec<u16>),
    Open,
    SendValue {
        sender: usize,
        receiver: usize,
        item: usize,
        cell: Option<R>,
    },
    SendBit {
        sender: usize,
        receiver: usize,
        item: usize,
        bit: usize,
    },
    SendFinal {
        sender: usize,
        receiver: usize,
    },
    Close,
    Look {
        node: usize,
        item: usize,
    },
    End,
}

/// The letter of a line, its fields and its length.
struct Parts<'a> {
    letter: u8,
    fields: [Field<'a>; 9],
    count: usize,
    length: usize,
}

impl<'a> Parts<'a> {
    /// The checks of length and letter.
    fn of(line: Line<'a>) -> Result<Parts<'a>, Fault> {
        if line.length == 0 || line.length > LIMIT {
            return Err(fault(Refusal::Torn, line.length));
        }
        let (fields, count) = fields(line.octets);
        match *fields[0].octets {
            [letter] if b"NXITOSBWCLZ".contains(&letter) => Ok(Parts {
                letter,
                fields,
                count,
                length: line.length,
            }),
            _ => Err(fault(Refusal::StrangeLetter, 0)),
        }
    }

    fn check_count(&self) -> Result<(), Fault> {
        let right = match self.letter {
            b'O' | b'C' | b'Z' => self.count == 1,
            b'X' => self.count == 2,
            b'W' | b'L' => self.count == 3,
            b'N' | b'I' => self.count == 4,
            b'S' | b'B' => self.count == 5,
            _ => (2..=9).contains(&self.count),
        };
        if right {
            Ok(())
        } else {
            Err(fault(Refusal::Torn, self.length))
        }
    }

    fn number(&self, index: usize) -> Result<usize, Fault> {
        let field = self.fields[index];
        number(field.octets).ok_or(fault(Refusal::StrangeReading, field.place))
    }

    fn kind(&self, index: usize) -> Result<KindLetter, Fault> {
        let field = self.fields[index];
        match field.octets {
            b"B" => Ok(KindLetter::Bearings),
            b"L" => Ok(KindLetter::Lamps),
            _ => Err(fault(Refusal::StrangeReading, field.place)),
        }
    }

    fn cell<R: Kind>(&self, index: usize) -> Result<Option<R>, Fault> {
        let field = self.fields[index];
        if field.octets == b"-" {
            return Ok(None);
        }
        match R::from_field(field.octets) {
            Some(reading) => Ok(Some(reading)),
            None => Err(Fault {
                refusal: Refusal::StrangeReading,
                layer: 1,
                place: field.place,
            }),
        }
    }

    fn strip(&self) -> Result<Vec<u16>, Fault> {
        self.fields[1..self.count]
            .iter()
            .map(|field| entry(field.octets).ok_or(fault(Refusal::StrangeReading, field.place)))
            .collect()
    }

    /// The fields of N, from left to right.
    fn new_fields(&self) -> Result<(usize, usize, KindLetter), Fault> {
        Ok((self.number(1)?, self.number(2)?, self.kind(3)?))
    }

    /// The checks of the number of fields and of the fields.
    fn command<R: Kind>(&self) -> Result<Command<R>, Fault> {
        self.check_count()?;
        Ok(match self.letter {
            b'N' => {
                self.new_fields()?;
                Command::New
            }
            b'X' => Command::MarkFaulty {
                node: self.number(1)?,
            },
            b'I' => Command::Propose {
                node: self.number(1)?,
                item: self.number(2)?,
                cell: self.cell(3)?,
            },
            b'T' => Command::SetStrip(self.strip()?),
            b'O' => Command::Open,
            b'S' => Command::SendValue {
                sender: self.number(1)?,
                receiver: self.number(2)?,
                item: self.number(3)?,
                cell: self.cell(4)?,
            },
            b'B' => Command::SendBit {
                sender: self.number(1)?,
                receiver: self.number(2)?,
                item: self.number(3)?,
                bit: self.number(4)?,
            },
            b'W' => Command::SendFinal {
                sender: self.number(1)?,
                receiver: self.number(2)?,
            },
            b'C' => Command::Close,
            b'L' => Command::Look {
                node: self.number(1)?,
                item: self.number(2)?,
            },
            _ => Command::End,
        })
    }
}

/// Where a run stands.
#[derive(Clone, Debug)]
pub(crate) enum Stage<R> {
    Setup(Setup<R>),
    Instance(Instance<R>),
    Outcome(Outcome<R>),
    /// Only while one stage is moved into the next.
    Between,
}

/// A run after an accepted N.
#[derive(Clone, Debug)]
pub(crate) struct Run<R> {
    pub(crate) strip: Strip,
    pub(crate) stage: Stage<R>,
}

impl<R: Kind> Run<R> {
    fn new(n: usize, m: usize) -> Result<Run<R>, Refusal> {
        Ok(Run {
            strip: Strip::new(vec![0])?,
            stage: Stage::Setup(Setup::new(n, m)?),
        })
    }

    fn line(&mut self, number: u64, parts: &Parts, out: &mut Vec<u8>) -> Result<(), Refused> {
        match (parts.command::<R>()?, &mut self.stage) {
            (Command::MarkFaulty { node }, Stage::Setup(setup)) => setup.mark_faulty(node)?,
            (Command::Propose { node, item, cell }, Stage::Setup(setup)) => {
                setup.propose(node, item, cell)?
            }
            (Command::SetStrip(entries), Stage::Setup(_)) => self.strip = Strip::new(entries)?,
            (Command::Open, Stage::Setup(_)) => {
                if let Stage::Setup(setup) = mem::replace(&mut self.stage, Stage::Between) {
                    self.stage = Stage::Instance(setup.open());
                }
            }
            (
                Command::SendValue {
                    sender,
                    receiver,
                    item,
                    cell,
                },
                Stage::Instance(instance),
            ) => instance.send_value(sender, receiver, item, cell)?,
            (
                Command::SendBit {
                    sender,
                    receiver,
                    item,
                    bit,
                },
                Stage::Instance(instance),
            ) => instance.send_bit(sender, receiver, item, bit)?,
            (Command::SendFinal { sender, receiver }, Stage::Instance(instance)) => {
                instance.send_final(sender, receiver)?
            }
            (Command::Close, Stage::Instance(instance)) => instance.close(&self.strip)?,
            (Command::Look { node, item }, Stage::Instance(instance)) => {
                print_look(number, node, item, instance.decision(node, item)?, out)
            }
            (Command::Look { node, item }, Stage::Outcome(outcome)) => {
                print_look(number, node, item, outcome.decision(node, item)?, out)
            }
            (Command::End, Stage::Instance(_)) => {
                if let Stage::Instance(instance) = mem::replace(&mut self.stage, Stage::Between) {
                    let outcome = instance.end();
                    print_rows(&outcome, out)?;
                    self.stage = Stage::Outcome(outcome);
                }
            }
            _ => return Err(fault(Refusal::OutOfTurn, 0).into()),
        }
        Ok(())
    }
}

fn print_look<R: Kind>(
    number: u64,
    node: usize,
    item: usize,
    decision: Decision<R>,
    out: &mut Vec<u8>,
) {
    write!(out, "{number} {node} {item} ").expect("a Vec takes all");
    print_decision(decision, out);
    out.push(b'\n');
}

fn print_rows<R: Kind>(outcome: &Outcome<R>, out: &mut Vec<u8>) -> Result<(), Refusal> {
    for node in (0..outcome.n()).filter(|&node| !outcome.is_faulty(node)) {
        print_number(node as u64, out);
        for item in 0..outcome.m() {
            out.push(b' ');
            print_decision(outcome.decision(node, item)?, out);
        }
        out.push(b'\n');
    }
    Ok(())
}

#[derive(Clone, Debug)]
pub(crate) enum State {
    Start,
    Bearings(Run<Bearing>),
    Lamps(Run<Lamp>),
}

impl State {
    fn line(&mut self, line: Line, out: &mut Vec<u8>) -> Result<(), Refused> {
        let parts = Parts::of(line)?;
        match self {
            State::Bearings(run) => run.line(line.number, &parts, out),
            State::Lamps(run) => run.line(line.number, &parts, out),
            State::Start => {
                if parts.letter != b'N' {
                    return Err(fault(Refusal::OutOfTurn, 0).into());
                }
                parts.check_count()?;
                let (n, m, kind) = parts.new_fields()?;
                *self = match kind {
                    KindLetter::Bearings => State::Bearings(Run::new(n, m)?),
                    KindLetter::Lamps => State::Lamps(Run::new(n, m)?),
                };
                Ok(())
            }
        }
    }

    fn answer(&mut self, line: Line, out: &mut Vec<u8>) {
        if let Err(refused) = self.line(line, out) {
            writeln!(out, "{} refused {}", line.number, refused.number()).expect("a Vec takes all");
        }
    }
}

/// The program, fed with chunks of its input.
#[derive(Clone, Debug)]
pub struct Harbour {
    splitter: Splitter,
    pub(crate) state: State,
}

impl Default for Harbour {
    fn default() -> Harbour {
        Harbour::new()
    }
}

impl Harbour {
    pub fn new() -> Harbour {
        Harbour {
            splitter: Splitter::new(LIMIT),
            state: State::Start,
        }
    }

    pub fn feed(&mut self, chunk: &[u8], out: &mut Vec<u8>) {
        let state = &mut self.state;
        self.splitter.feed(chunk, |line| state.answer(line, out));
    }

    pub fn finish(&mut self, out: &mut Vec<u8>) {
        let state = &mut self.state;
        self.splitter.finish(|line| state.answer(line, out));
    }

    /// One line by itself, without octet 10: why it is refused.
    pub fn refusal(&mut self, octets: &[u8]) -> Option<Refused> {
        let line = Line {
            number: 0,
            octets,
            length: octets.len(),
        };
        self.state.line(line, &mut Vec::new()).err()
    }
}

/// The whole program: octets in, octets out.
pub fn harbour(input: &[u8]) -> Vec<u8> {
    let mut out = Vec::new();
    let mut harbour = Harbour::new();
    harbour.feed(input, &mut out);
    harbour.finish(&mut out);
    out
}
