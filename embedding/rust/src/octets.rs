//! The library's calls, over octets and numbers. embedding/rilvatok.h says what each does, and in which order it checks.

/// Octets that suffice for what a closing writes, in every kind.
pub const CLOSED_OCTETS: usize = 6;
/// Octets that suffice for the items of a message.
pub const ITEMS_OCTETS: usize = 64;
/// Octets that suffice for a message.
pub const MESSAGE_OCTETS: usize = 69;
/// Octets that suffice for a word.
pub const WORD_OCTETS: usize = 15;

/// The closing of one item at one node: `kind` is B or L, `bit` and `decided` are 0 or 1.
#[repr(C)]
#[derive(Clone, Copy, PartialEq, Eq, Debug, Default)]
pub struct CloseRequest {
    pub n: usize,
    pub node: usize,
    pub step: usize,
    pub item: usize,
    pub kind: u8,
    pub bit: u8,
    pub decided: u8,
}

/// What a message says besides its items: `letter` is P, E, B or F.
#[repr(C)]
#[derive(Clone, Copy, PartialEq, Eq, Debug, Default)]
pub struct MessageHead {
    pub step: usize,
    pub node: usize,
    pub items: usize,
    pub letter: u8,
}

/// Why a message was refused: the place of the octet, the refusal's number, and the layer that found it.
#[repr(C)]
#[derive(Clone, Copy, PartialEq, Eq, Debug, Default)]
pub struct MessageFault {
    pub place: usize,
    pub number: u8,
    pub layer: u8,
}

// The library has the layout of 64 bits.
const _: () = assert!(std::mem::size_of::<usize>() == 8);

mod raw {
    use super::{CloseRequest, MessageFault, MessageHead};

    extern "C" {
        pub fn rilvatok_close_item(
            request: *const CloseRequest,
            strip: *const u8,
            strip_length: usize,
            heard: *const u8,
            heard_length: usize,
            place: *mut u8,
            place_length: usize,
        ) -> u8;
        pub fn rilvatok_read_message(
            kind: u8,
            n: usize,
            m: usize,
            octets: *const u8,
            octets_length: usize,
            head: *mut MessageHead,
            items: *mut u8,
            items_length: usize,
            fault: *mut MessageFault,
        ) -> u8;
        pub fn rilvatok_write_message(
            kind: u8,
            n: usize,
            head: *const MessageHead,
            items: *const u8,
            items_length: usize,
            place: *mut u8,
            place_length: usize,
            length: *mut usize,
            fault: *mut MessageFault,
        ) -> u8;
        pub fn rilvatok_refusal_word(number: u8, place: *mut u8, place_length: usize) -> usize;
    }
}

// In each call below: a slice's pointer is never null and has its length behind it, all of which holds a value, and what is lent to be
// changed overlaps nothing else, since the borrow checker says so. That is all that the library asks of a caller.

/// Closes one item at one node: 0, or the refusal's number.
pub fn close_item(request: &CloseRequest, strip: &[u8], heard: &[u8], place: &mut [u8]) -> u8 {
    unsafe {
        raw::rilvatok_close_item(
            request,
            strip.as_ptr(),
            strip.len(),
            heard.as_ptr(),
            heard.len(),
            place.as_mut_ptr(),
            place.len(),
        )
    }
}

/// Reads octets as a message for n nodes and m items: 0, or the refusal's number.
pub fn read_message(
    kind: u8,
    n: usize,
    m: usize,
    octets: &[u8],
    head: &mut MessageHead,
    items: &mut [u8],
    fault: &mut MessageFault,
) -> u8 {
    unsafe {
        raw::rilvatok_read_message(
            kind,
            n,
            m,
            octets.as_ptr(),
            octets.len(),
            head,
            items.as_mut_ptr(),
            items.len(),
            fault,
        )
    }
}

/// Writes a message for n nodes, with `head.items` items: 0, or the refusal's number.
pub fn write_message(
    kind: u8,
    n: usize,
    head: &MessageHead,
    items: &[u8],
    place: &mut [u8],
    length: &mut usize,
    fault: &mut MessageFault,
) -> u8 {
    unsafe {
        raw::rilvatok_write_message(
            kind,
            n,
            head,
            items.as_ptr(),
            items.len(),
            place.as_mut_ptr(),
            place.len(),
            length,
            fault,
        )
    }
}

/// Writes the word of a refusal's number: its length, or 0 where there is no such number or no room.
pub fn refusal_word(number: u8, place: &mut [u8]) -> usize {
    unsafe { raw::rilvatok_refusal_word(number, place.as_mut_ptr(), place.len()) }
}
