//! Messages.

use reference::protocol::{Bearing, Fault, Lamp, Period, Reading, Refusal};
use reference::wire::{read, read_lines, write, Content, Message};

fn fault<R: Reading>(n: usize, m: usize, octets: &[u8]) -> (u8, u8, usize) {
    match read::<R>(n, m, octets) {
        Ok(_) => (0, 0, 0),
        Err(Fault {
            refusal,
            layer,
            place,
        }) => (refusal.number(), layer, place),
    }
}

#[test]
fn written_octets() {
    let mut place = [9; 16];
    let poll = Message {
        step: 1,
        node: 3,
        content: Content::Poll(vec![Some(Bearing(1000)), None]),
    };
    assert_eq!(write(4, 2, &poll, &mut place), Ok(11));
    assert_eq!(place, [b'P', 0, 1, 3, 2, 1, 3, 232, 0, 0, 0, 9, 9, 9, 9, 9]);
    assert_eq!(read(4, 2, &place[..11]), Ok(poll));

    let lamp = Lamp::Flashing(Period::new(600).unwrap());
    let echo = Message {
        step: 2,
        node: 0,
        content: Content::Echo(vec![Some(lamp)]),
    };
    let mut place = [9; 9];
    assert_eq!(write(1, 1, &echo, &mut place), Ok(9));
    assert_eq!(place, [b'E', 0, 2, 0, 1, 1, 2, 2, 88]);
    assert_eq!(read(1, 1, &place), Ok(echo));

    let mut bits = vec![false; 10];
    (bits[0], bits[9]) = (true, true);
    let last = Message::<Lamp> {
        step: 302,
        node: 15,
        content: Content::Final(bits),
    };
    let mut place = [9; 8];
    assert_eq!(write(16, 10, &last, &mut place), Ok(7));
    assert_eq!(place, [b'F', 1, 46, 15, 10, 1, 2, 9]);
    assert_eq!(read(16, 10, &place[..7]), Ok(last));
}

#[test]
fn reader_faults() {
    let good = [b'P', 0, 1, 3, 2, 1, 3, 232, 0, 0, 0];
    let with = |place: usize, octet: u8| {
        let mut octets = good;
        octets[place] = octet;
        octets
    };
    assert_eq!(fault::<Bearing>(4, 2, &good), (0, 0, 0));
    assert_eq!(fault::<Bearing>(0, 2, &[]), (1, 2, 0));
    assert_eq!(fault::<Bearing>(4, 17, &good), (1, 2, 0));
    assert_eq!(fault::<Bearing>(4, 2, &good[..4]), (10, 2, 4));
    assert_eq!(fault::<Bearing>(4, 2, b"Q"), (10, 2, 1));
    assert_eq!(fault::<Bearing>(4, 2, b"Q1234"), (11, 2, 0));
    assert_eq!(fault::<Bearing>(4, 3, &good), (10, 2, 11));
    assert_eq!(fault::<Bearing>(4, 2, &good[..10]), (10, 2, 10));
    assert_eq!(fault::<Lamp>(4, 2, &good), (10, 2, 11));
    assert_eq!(fault::<Bearing>(3, 2, &with(2, 9)), (3, 2, 3));
    assert_eq!(fault::<Bearing>(4, 2, &with(2, 2)), (13, 2, 1));
    assert_eq!(fault::<Bearing>(4, 2, &with(5, 2)), (12, 2, 5));
    assert_eq!(fault::<Bearing>(4, 2, &with(5, 0)), (12, 2, 5));
    assert_eq!(fault::<Bearing>(4, 2, &with(10, 1)), (12, 2, 8));
    let lamp = [b'E', 0, 2, 0, 2, 0, 0, 0, 0, 1, 2, 2, 89];
    assert_eq!(fault::<Lamp>(1, 2, &lamp), (12, 1, 9));
    let bits = [b'B', 1, 46, 0, 9, 255, 1];
    assert_eq!(fault::<Lamp>(1, 9, &bits), (0, 0, 0));
    assert_eq!(
        fault::<Lamp>(1, 9, &[b'B', 1, 46, 0, 9, 255, 128]),
        (12, 2, 6)
    );
    assert_eq!(
        fault::<Lamp>(1, 9, &[b'B', 1, 47, 0, 9, 255, 128]),
        (13, 2, 1)
    );
    assert_eq!(fault::<Lamp>(1, 9, &[b'B', 0, 2, 0, 9, 255, 1]), (13, 2, 1));
    assert_eq!(fault::<Lamp>(1, 8, &[b'F', 0, 3, 0, 8, 255]), (0, 0, 0));
    assert_eq!(fault::<Lamp>(1, 1, &[b'F', 0, 3, 0, 1, 3]), (12, 2, 5));
}

#[test]
fn writer_faults() {
    let message = |step, node, count| Message::<Bearing> {
        step,
        node,
        content: Content::Bits(vec![true; count]),
    };
    let faulty = |n, m, message: &Message<Bearing>, length| {
        let mut place = vec![7; length];
        let Err(Fault {
            refusal,
            layer,
            place: at,
        }) = write(n, m, message, &mut place)
        else {
            return (0, 0, 0);
        };
        assert!(place.iter().all(|&octet| octet == 7));
        (refusal.number(), layer, at)
    };
    assert_eq!(faulty(0, 9, &message(9, 9, 8), 0), (1, 2, 0));
    assert_eq!(faulty(1, 9, &message(2, 9, 8), 0), (10, 2, 8));
    assert_eq!(faulty(1, 9, &message(2, 9, 9), 0), (3, 2, 3));
    assert_eq!(faulty(1, 9, &message(2, 0, 9), 0), (13, 2, 1));
    assert_eq!(faulty(1, 9, &message(303, 0, 9), 0), (13, 2, 1));
    assert_eq!(faulty(1, 9, &message(65539, 0, 9), 9), (13, 2, 1));
    assert_eq!(faulty(1, 9, &message(302, 0, 9), 6), (2, 2, 0));
    assert_eq!(faulty(1, 9, &message(302, 0, 9), 7), (0, 0, 0));
    assert_eq!(Refusal::Short.to_string(), "short");
}

#[test]
fn printed_lines() {
    let lines = b"B 4 2 51000103020103E8000000\nL 1 9 46012E00090102\nL 1 9 -\nB 4 1 42000300010\nL 1 9 42000300090101\n";
    let wanted = "1 fault 11 2 0\n2 fault 12 2 6\n3 fault 10 2 0\n4 malformed\n5 ok B 3 0 1 0 0 0 0 0 0 0 1\n";
    assert_eq!(String::from_utf8(read_lines(lines)).unwrap(), wanted);
    let lines = b"B 4 2 50000103020103E8000000";
    assert_eq!(
        String::from_utf8(read_lines(lines)).unwrap(),
        "1 ok P 1 3 03E8 -\n"
    );
    assert!(read_lines(b"").is_empty());
}
