//! The refusals, and the faults of messages.
use crate::octets;
use std::error::Error;
use std::fmt;

/// Why a call was refused. docs/REFUSALS.md says when each is given.
#[derive(Clone, Copy, PartialEq, Eq, Debug)]
#[repr(u8)]
pub enum Refusal {
    BadSize = 1,
    Short = 2,
    NoNode = 3,
    NoItem = 4,
    HonestSender = 5,
    FaultyNode = 6,
    WrongPhase = 7,
    Repeated = 8,
    Over = 9,
    Torn = 10,
    StrangeLetter = 11,
    StrangeReading = 12,
    OutOfTurn = 13,
}

impl Refusal {
    /// All refusals, by their numbers from 1 on.
    pub const ALL: [Refusal; 13] = [
        Refusal::BadSize,
        Refusal::Short,
        Refusal::NoNode,
        Refusal::NoItem,
        Refusal::HonestSender,
        Refusal::FaultyNode,
        Refusal::WrongPhase,
        Refusal::Repeated,
        Refusal::Over,
        Refusal::Torn,
        Refusal::StrangeLetter,
        Refusal::StrangeReading,
        Refusal::OutOfTurn,
    ];

    /// The refusal's number.
    pub const fn number(self) -> u8 {
        self as u8
    }

    /// The refusal with a number, if there is one.
    pub fn of(number: u8) -> Option<Refusal> {
        Refusal::ALL
            .into_iter()
            .find(|refusal| refusal.number() == number)
    }

    /// The refusal's word.
    pub fn word(self) -> String {
        let mut place = [0; octets::WORD_OCTETS];
        let length = octets::refusal_word(self.number(), &mut place);
        place[..length]
            .iter()
            .map(|octet| char::from(*octet))
            .collect()
    }

    /// What a call's number says.
    pub(crate) fn check(number: u8) -> Result<(), Refusal> {
        match Refusal::of(number) {
            Some(refusal) => Err(refusal),
            None => Ok(()),
        }
    }
}

impl fmt::Display for Refusal {
    fn fmt(&self, f: &mut fmt::Formatter<'_>) -> fmt::Result {
        f.write_str(&self.word())
    }
}

impl Error for Refusal {}

/// Why a message was refused: the layer that found it (1 the kind of reading, 2 the message), and the place of the octet, counted from 0.
#[derive(Clone, Copy, PartialEq, Eq, Debug)]
pub struct Fault {
    pub refusal: Refusal,
    pub layer: u8,
    pub place: usize,
}

impl Fault {
    /// The fault that the library told.
    pub(crate) fn of(fault: &octets::MessageFault) -> Fault {
        Fault {
            refusal: Refusal::of(fault.number)
                .expect("the library tells faults with numbers of refusals"),
            layer: fault.layer,
            place: fault.place,
        }
    }
}

impl fmt::Display for Fault {
    fn fmt(&self, f: &mut fmt::Formatter<'_>) -> fmt::Result {
        write!(
            f,
            "{} at octet {} (layer {})",
            self.refusal, self.place, self.layer
        )
    }
}

impl Error for Fault {}
