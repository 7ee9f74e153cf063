//! Why a call, a message or a line is refused.

use std::fmt;

#[derive(Clone, Copy, Debug, PartialEq, Eq)]
pub enum Refusal {
    BadSize = 1,
    Short = 2,
    NoNode = 3,
    NoItem = 4,
    HonestSender = 5,
    FaultyNode = 6,
    WrongPhase = 7,
    Repeated = 8,
    Over = 9,
    Torn = 10,
    StrangeLetter = 11,
    StrangeReading = 12,
    OutOfTurn = 13,
}

impl Refusal {
    pub fn number(self) -> u8 {
        self as u8
    }

    pub fn word(self) -> &'static str {
        match self {
            Refusal::BadSize => "no roll",
            Refusal::Short => "short",
            Refusal::NoNode => "no seat",
            Refusal::NoItem => "no item",
            Refusal::HonestSender => "sound sender",
            Refusal::FaultyNode => "stray seat",
            Refusal::WrongPhase => "wrong side",
            Refusal::Repeated => "said already",
            Refusal::Over => "over",
            Refusal::Torn => "torn",
            Refusal::StrangeLetter => "strange letter",
            Refusal::StrangeReading => "strange reading",
            Refusal::OutOfTurn => "out of turn",
        }
    }
}

impl fmt::Display for Refusal {
    fn fmt(&self, f: &mut fmt::Formatter) -> fmt::Result {
        f.write_str(self.word())
    }
}

/// A refusal of a message or a line: layer 1 is the kind, 2 a message, 3 a line.
#[derive(Clone, Copy, Debug, PartialEq, Eq)]
pub struct Fault {
    pub refusal: Refusal,
    pub layer: u8,
    pub place: usize,
}
