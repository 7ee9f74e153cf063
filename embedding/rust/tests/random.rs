//! Octets and numbers at random: nothing crashes, a refusal alters nothing, what is written reads back, and closings are those of a plain model.
use rilvatok::octets::*;
use rilvatok::{close_item as close, read_message as read, write_message as write};
use rilvatok::{Bearing, Cell, Close, Closed, Items, Mark, Message};

/// Numbers at random, the same in each run.
struct Dice(u64);

impl Dice {
    fn next(&mut self) -> u64 {
        self.0 ^= self.0 << 13;
        self.0 ^= self.0 >> 7;
        self.0 ^= self.0 << 17;
        self.0
    }

    fn below(&mut self, limit: usize) -> usize {
        (self.next() % limit as u64) as usize
    }

    /// A number that is mostly small.
    fn some(&mut self) -> usize {
        match self.below(8) {
            0 => self.next() as usize,
            1 => self.below(400),
            _ => self.below(18),
        }
    }

    /// An octet that is mostly small.
    fn octet(&mut self) -> u8 {
        if self.below(4) == 0 {
            self.next() as u8
        } else {
            self.below(4) as u8
        }
    }

    /// Mostly one of some letters.
    fn letter(&mut self, letters: &[u8]) -> u8 {
        if self.below(8) == 0 {
            self.next() as u8
        } else {
            letters[self.below(letters.len())]
        }
    }

    fn octets(&mut self, limit: usize) -> Vec<u8> {
        (0..self.below(limit)).map(|_| self.octet()).collect()
    }
}

const TURNS: usize = 500_000;

#[test]
fn closings_of_any_octets() {
    let mut dice = Dice(1);
    for _ in 0..TURNS {
        let request = CloseRequest {
            n: dice.some(),
            node: dice.some(),
            step: dice.some(),
            item: dice.some(),
            kind: dice.letter(b"BL"),
            bit: dice.octet(),
            decided: dice.octet(),
        };
        let (strip, heard) = (dice.octets(40), dice.octets(80));
        let mut place = vec![0xAA; dice.below(10)];
        let number = close_item(&request, &strip, &heard, &mut place);
        assert!(number <= 13);
        if number != 0 {
            assert!(place.iter().all(|octet| *octet == 0xAA));
        }
    }
}

#[test]
fn messages_of_any_octets() {
    let mut dice = Dice(2);
    let mut taken = 0;
    for _ in 0..TURNS {
        let kind = dice.letter(b"BL");
        let (n, m) = (dice.some(), 1 + dice.below(16));
        let letter = dice.letter(b"PEBF");
        let wide = if kind == b'L' { 4 } else { 3 };
        let (step, body) = match letter {
            b'P' => (1, m * wide),
            b'E' => (2, m * wide),
            _ => (3, m.div_ceil(8)),
        };
        let mut octets = vec![letter, 0, step, dice.below(4) as u8, m as u8];
        if dice.below(2) == 0 {
            octets.extend((0..body).map(|i| u8::from(i % wide == 0 && dice.below(2) == 0)));
        } else {
            octets.extend(dice.octets(70));
        }
        if dice.below(2) == 0 {
            let at = dice.below(octets.len());
            octets[at] = dice.octet();
        }
        let untold = MessageHead {
            step: 99,
            ..MessageHead::default()
        };
        let (mut head, mut fault) = (untold, MessageFault::default());
        let mut items = vec![0xAA; dice.below(80)];
        let number = read_message(kind, n, m, &octets, &mut head, &mut items, &mut fault);
        assert_eq!(number, fault.number);
        if number != 0 {
            assert!(number <= 13 && fault.layer >= 1 && fault.layer <= 2);
            assert_eq!(head, untold);
            assert!(items.iter().all(|octet| *octet == 0xAA));
            continue;
        }
        // octets that are read are those that are written for what they say
        let count = if head.letter == b'P' || head.letter == b'E' {
            octets.len() - 5
        } else {
            head.items
        };
        let mut place = [0; MESSAGE_OCTETS];
        let mut length = 0;
        assert_eq!(
            write_message(
                kind,
                n,
                &head,
                &items[..count],
                &mut place,
                &mut length,
                &mut fault
            ),
            0
        );
        assert_eq!(place[..length], octets);
        taken += 1;
    }
    assert!(taken > TURNS / 100, "only {taken} messages were read");
}

#[test]
fn any_items_written() {
    let mut dice = Dice(3);
    let mut taken = 0;
    for _ in 0..TURNS {
        let kind = dice.letter(b"BL");
        let (n, m) = (dice.some(), dice.some());
        let head = MessageHead {
            step: dice.below(8),
            node: dice.some(),
            items: m,
            letter: dice.letter(b"PEBF"),
        };
        let mut items = dice.octets(80);
        if dice.below(2) == 0 {
            let wide = match (head.letter, kind) {
                (b'P' | b'E', b'L') => 4,
                (b'P' | b'E', _) => 3,
                _ => 1,
            };
            items = (0..m.min(20) * wide)
                .map(|i| u8::from(i % wide == 0 && dice.below(2) == 0))
                .collect();
        }
        let mut place = vec![0xAA; dice.below(100)];
        let (mut length, mut fault) = (99, MessageFault::default());
        let number = write_message(kind, n, &head, &items, &mut place, &mut length, &mut fault);
        assert_eq!(number, fault.number);
        if number != 0 {
            assert!(number <= 13 && fault.layer >= 1 && fault.layer <= 2 && length == 99);
            assert!(place.iter().all(|octet| *octet == 0xAA));
            continue;
        }
        assert!(place[length..].iter().all(|octet| *octet == 0xAA));
        // what is written reads back
        let (mut told, mut back) = (MessageHead::default(), [0; ITEMS_OCTETS]);
        assert_eq!(
            read_message(
                kind,
                n,
                m,
                &place[..length],
                &mut told,
                &mut back,
                &mut fault
            ),
            0
        );
        assert_eq!(told, head);
        assert_eq!(back[..items.len()], items);
        taken += 1;
    }
    assert!(taken > TURNS / 100, "only {taken} messages were written");
}

#[test]
fn words_of_any_numbers() {
    let mut dice = Dice(4);
    for number in 0..=255 {
        let mut place = vec![0xAA; dice.below(20)];
        let length = refusal_word(number, &mut place);
        assert!(length <= place.len());
        assert!(place[length..].iter().all(|octet| *octet == 0xAA));
        assert_eq!(
            length == 0,
            number == 0 || number > 13 || refusal_word(number, &mut [0; 15]) > place.len()
        );
    }
}

/// The closing as docs/PROTOCOL.md tells it, for bearings.
fn model(ask: &Close, strip: &[u16], cells: &[Cell<Bearing>], marks: &[Mark]) -> Closed<Bearing> {
    let (quorum, weak) = (2 * ask.n / 3 + 1, ask.n / 3 + 1);
    let backers = |sought: Bearing| {
        cells[..ask.n]
            .iter()
            .flatten()
            .filter(|cell| cell.0 % 36000 == sought.0 % 36000)
            .count()
    };
    let lowest = |needed| {
        cells[..ask.n]
            .iter()
            .flatten()
            .copied()
            .find(|cell| backers(*cell) >= needed)
    };
    let sent = |mark| {
        marks[..ask.n]
            .iter()
            .filter(|heard| **heard == mark)
            .count()
            >= quorum
    };
    let (zeros, ones) = if ask.step > 2 {
        (sent(Mark::Bit0), sent(Mark::Bit1))
    } else {
        (false, false)
    };
    let round = ask.step / 3;
    let (bit, decided) = match (ask.step, ask.step % 3) {
        (1, _) => {
            return Closed::Polled {
                value: lowest(quorum),
            }
        }
        (2, _) => {
            let (value, grade) = match (lowest(quorum), lowest(weak)) {
                (Some(value), _) => (Some(value), 2),
                (None, Some(value)) => (Some(value), 1),
                (None, None) => (None, 0),
            };
            return Closed::Graded {
                value,
                grade,
                bit: grade != 2,
            };
        }
        (_, 0) => (!zeros && ones, zeros),
        (_, 1) => (ones || !zeros, ones),
        _ => (
            !zeros && (ones || strip[(round - 1) % strip.len()] >> ask.item & 1 == 1),
            false,
        ),
    };
    if ask.decided {
        Closed::Voted {
            bit: ask.bit,
            decided: true,
        }
    } else {
        Closed::Voted { bit, decided }
    }
}

#[test]
fn closings_are_the_models() {
    let mut dice = Dice(5);
    for _ in 0..TURNS {
        let n = 1 + dice.below(16);
        let step = if dice.below(2) == 0 {
            1 + dice.below(2)
        } else {
            3 + dice.below(300)
        };
        let ask = Close {
            n,
            node: dice.below(n),
            step,
            item: dice.below(16),
            bit: dice.below(2) == 0,
            decided: dice.below(4) == 0,
        };
        let count = n + dice.below(3);
        let spread = 1 + dice.below(4);
        let cells: Vec<_> = (0..count)
            .map(|_| {
                (dice.below(5) != 0)
                    .then(|| Bearing((dice.below(spread) + 36000 * dice.below(2)) as u16))
            })
            .collect();
        let marks: Vec<_> = (0..count)
            .map(|_| [Mark::Nothing, Mark::Bit0, Mark::Bit1][dice.below(1 + spread).min(2)])
            .collect();
        let strip: Vec<_> = (0..1 + dice.below(4)).map(|_| dice.next() as u16).collect();
        assert_eq!(
            close(&ask, &strip, &cells, &marks),
            Ok(model(&ask, &strip, &cells, &marks))
        );
    }
}

#[test]
fn typed_messages_read_back() {
    let mut dice = Dice(6);
    for _ in 0..TURNS {
        let (n, m) = (1 + dice.below(16), 1 + dice.below(16));
        let cells = |dice: &mut Dice| {
            (0..m)
                .map(|_| (dice.below(3) != 0).then(|| Bearing(dice.next() as u16)))
                .collect()
        };
        let bits = |dice: &mut Dice| (0..m).map(|_| dice.below(2) == 0).collect();
        let (step, items) = match dice.below(4) {
            0 => (1, Items::Poll(cells(&mut dice))),
            1 => (2, Items::Echo(cells(&mut dice))),
            2 => (3 + dice.below(300), Items::Bits(bits(&mut dice))),
            _ => (3 + dice.below(300), Items::Final(bits(&mut dice))),
        };
        let message = Message {
            step,
            node: dice.below(n),
            items,
        };
        let mut place = [0; MESSAGE_OCTETS];
        let length = write(n, m, &message, &mut place).unwrap();
        assert_eq!(read(n, m, &place[..length]), Ok(message));
    }
}
