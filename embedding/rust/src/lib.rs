//! Rilvatok for controllers in Rust: one item's closing, and messages read and written.
//!
//! [`close_item`], [`read_message`] and [`write_message`] take and give typed readings. Below them,
//! [`octets`] has the library's own calls, over octets and numbers. The proofs end at that boundary:
//! what is on this side of it is only tested.
//!
//! Node 0 of four closes step 1 of one item, and writes the echo that it sends in step 2:
//!
//! ```
//! use rilvatok::*;
//!
//! let close = Close { n: 4, node: 0, step: 1, item: 0, bit: false, decided: false };
//! let heard = [Some(Bearing(1000)), Some(Bearing(1000)), Some(Bearing(37000)), None];
//! let closed = close_item(&close, &[0], &heard, &[])?;
//! assert_eq!(closed, Closed::Polled { value: Some(Bearing(1000)) });
//!
//! let echo = Message { step: 2, node: 0, items: Items::Echo(vec![Some(Bearing(1000))]) };
//! let mut place = [0; octets::MESSAGE_OCTETS];
//! let length = write_message(4, 1, &echo, &mut place)?;
//! assert_eq!(place[..length], [b'E', 0, 2, 0, 1, 1, 0x03, 0xE8]);
//! assert_eq!(read_message(4, 1, &place[..length])?, echo);
//!
//! assert_eq!(close_item(&Close { node: 4, ..close }, &[0], &heard, &[]), Err(Refusal::NoNode));
//! # Ok::<(), Box<dyn std::error::Error>>(())
//! ```

pub mod octets;
mod readings;
mod refusals;

pub use readings::{Bearing, Cell, Kind, Lamp, Reading};
pub use refusals::{Fault, Refusal};

/// The closing of one item at one node, as a caller asks for it.
#[derive(Clone, Copy, PartialEq, Eq, Debug)]
pub struct Close {
    /// How many nodes there are, 1 to 16.
    pub n: usize,
    /// The node that closes, below n.
    pub node: usize,
    /// The step that closes, 1 to 302.
    pub step: usize,
    /// The item, 0 to 15.
    pub item: usize,
    /// The node's bit of the item: true is 1.
    pub bit: bool,
    /// Whether the item is decided at the node.
    pub decided: bool,
}

/// What a closing gives.
#[derive(Clone, Copy, PartialEq, Eq, Debug)]
pub enum Closed<R> {
    /// Step 1: the new value.
    Polled { value: Cell<R> },
    /// Step 2: the value, its grade 0 to 2, and the first bit.
    Graded {
        value: Cell<R>,
        grade: u8,
        bit: bool,
    },
    /// From step 3 on: the bit, and whether the item is decided.
    Voted { bit: bool, decided: bool },
}

/// What was heard of a bit, from a node.
#[derive(Clone, Copy, PartialEq, Eq, Debug)]
pub enum Mark {
    Nothing,
    Bit0,
    Bit1,
}

impl Mark {
    fn octet(self) -> u8 {
        match self {
            Mark::Nothing => 0,
            Mark::Bit0 => 2,
            Mark::Bit1 => 3,
        }
    }
}

/// Closes one item at one node, under a strip of entries. It looks at the cells in steps 1 and 2, and at the marks in all others.
pub fn close_item<R: Reading>(
    close: &Close,
    strip: &[u16],
    cells: &[Cell<R>],
    marks: &[Mark],
) -> Result<Closed<R>, Refusal> {
    let request = octets::CloseRequest {
        n: close.n,
        node: close.node,
        step: close.step,
        item: close.item,
        kind: R::KIND.letter(),
        bit: close.bit.into(),
        decided: close.decided.into(),
    };
    let strip: Vec<u8> = strip.iter().flat_map(|entry| entry.to_be_bytes()).collect();
    let heard: Vec<u8> = match close.step {
        1 | 2 => readings::put_cells(cells),
        _ => marks.iter().map(|mark| mark.octet()).collect(),
    };
    let mut place = [0; octets::CLOSED_OCTETS];
    Refusal::check(octets::close_item(&request, &strip, &heard, &mut place))?;
    let wide = 1 + R::KIND.width();
    Ok(match close.step {
        1 => Closed::Polled {
            value: readings::get_cell(&place[..wide]),
        },
        2 => Closed::Graded {
            value: readings::get_cell(&place[..wide]),
            grade: place[wide],
            bit: place[wide + 1] == 1,
        },
        _ => Closed::Voted {
            bit: place[0] == 1,
            decided: place[1] == 1,
        },
    })
}

/// What a message has of each item, by its letter.
#[derive(Clone, PartialEq, Eq, Debug)]
pub enum Items<R> {
    /// P: the cells of a poll.
    Poll(Vec<Cell<R>>),
    /// E: the cells of an echo.
    Echo(Vec<Cell<R>>),
    /// B: bits.
    Bits(Vec<bool>),
    /// F: bits that stand for all steps that follow.
    Final(Vec<bool>),
}

/// A message: the step in which it is sent, the node that sends it, and its items.
#[derive(Clone, PartialEq, Eq, Debug)]
pub struct Message<R> {
    pub step: usize,
    pub node: usize,
    pub items: Items<R>,
}

/// Reads octets as a message for n nodes and m items.
pub fn read_message<R: Reading>(n: usize, m: usize, octets: &[u8]) -> Result<Message<R>, Fault> {
    let mut head = octets::MessageHead::default();
    let mut items = [0; octets::ITEMS_OCTETS];
    let mut fault = octets::MessageFault::default();
    if octets::read_message(
        R::KIND.letter(),
        n,
        m,
        octets,
        &mut head,
        &mut items,
        &mut fault,
    ) != 0
    {
        return Err(Fault::of(&fault));
    }
    let cells = || {
        items[..head.items * (1 + R::KIND.width())]
            .chunks(1 + R::KIND.width())
            .map(readings::get_cell)
            .collect()
    };
    let bits = || items[..head.items].iter().map(|bit| *bit == 1).collect();
    let items = match head.letter {
        b'P' => Items::Poll(cells()),
        b'E' => Items::Echo(cells()),
        b'B' => Items::Bits(bits()),
        _ => Items::Final(bits()),
    };
    Ok(Message {
        step: head.step,
        node: head.node,
        items,
    })
}

/// Writes a message for n nodes and m items to the front of a place, and gives its length.
pub fn write_message<R: Reading>(
    n: usize,
    m: usize,
    message: &Message<R>,
    place: &mut [u8],
) -> Result<usize, Fault> {
    let (letter, items) = match &message.items {
        Items::Poll(cells) => (b'P', readings::put_cells(cells)),
        Items::Echo(cells) => (b'E', readings::put_cells(cells)),
        Items::Bits(bits) => (b'B', bits.iter().map(|bit| u8::from(*bit)).collect()),
        Items::Final(bits) => (b'F', bits.iter().map(|bit| u8::from(*bit)).collect()),
    };
    let head = octets::MessageHead {
        step: message.step,
        node: message.node,
        items: m,
        letter,
    };
    let mut length = 0;
    let mut fault = octets::MessageFault::default();
    match octets::write_message(
        R::KIND.letter(),
        n,
        &head,
        &items,
        place,
        &mut length,
        &mut fault,
    ) {
        0 => Ok(length),
        _ => Err(Fault::of(&fault)),
    }
}
