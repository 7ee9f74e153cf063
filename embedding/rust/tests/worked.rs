//! Worked examples of docs/PROTOCOL.md and docs/FORMATS.md, and the refusals.
use rilvatok::*;

const FOUR: Close = Close {
    n: 4,
    node: 0,
    step: 1,
    item: 0,
    bit: false,
    decided: false,
};

fn bearings(list: &[u16]) -> Vec<Cell<Bearing>> {
    list.iter()
        .map(|hundredths| Some(Bearing(*hundredths)))
        .collect()
}

fn in_step(step: usize, cells: &[Cell<Bearing>]) -> Result<Closed<Bearing>, Refusal> {
    close_item(&Close { step, ..FOUR }, &[0], cells, &[])
}

fn votes(step: usize, strip: &[u16], marks: &[Mark]) -> Result<Closed<Bearing>, Refusal> {
    close_item(&Close { step, ..FOUR }, strip, &[], marks)
}

const TWO_AND_TWO: [Mark; 4] = [Mark::Bit0, Mark::Bit0, Mark::Bit1, Mark::Bit1];

#[test]
fn a_quorum_for_a_meaning() {
    let value = Some(Bearing(1000));
    assert_eq!(
        in_step(1, &bearings(&[1000, 1000, 37000, 500])),
        Ok(Closed::Polled { value })
    );
    let mut cells = bearings(&[1000, 1000, 500]);
    cells.push(None);
    assert_eq!(in_step(1, &cells), Ok(Closed::Polled { value: None }));
}

#[test]
fn whole_turns_do_not_count() {
    assert_eq!(
        in_step(1, &bearings(&[36000, 0, 36000, 1])),
        Ok(Closed::Polled {
            value: Some(Bearing(36000))
        })
    );
    assert_eq!(
        in_step(1, &bearings(&[35999, 0, 35999, 0])),
        Ok(Closed::Polled { value: None })
    );
}

#[test]
fn flashing_is_not_standby() {
    let close = Close { n: 2, ..FOUR };
    let cells = [Some(Lamp::Flashing(35)), Some(Lamp::Standby(35))];
    assert_eq!(
        close_item(&close, &[0], &cells, &[]),
        Ok(Closed::Polled { value: None })
    );
    let cells = [Some(Lamp::Flashing(35)); 2];
    assert_eq!(
        close_item(&close, &[0], &cells, &[]),
        Ok(Closed::Polled { value: cells[0] })
    );
}

#[test]
fn grades() {
    let value = Some(Bearing(1000));
    for (equal, graded) in [
        (
            3,
            Closed::Graded {
                value,
                grade: 2,
                bit: false,
            },
        ),
        (
            2,
            Closed::Graded {
                value,
                grade: 1,
                bit: true,
            },
        ),
        (
            1,
            Closed::Graded {
                value: None,
                grade: 0,
                bit: true,
            },
        ),
    ] {
        let mut cells = vec![value; equal];
        cells.resize(4, None);
        assert_eq!(in_step(2, &cells), Ok(graded));
    }
}

#[test]
fn bits_that_no_quorum_sent() {
    for k in 1..=100 {
        assert_eq!(
            votes(3 * k, &[0], &TWO_AND_TWO),
            Ok(Closed::Voted {
                bit: false,
                decided: false
            })
        );
        assert_eq!(
            votes(3 * k + 1, &[0], &TWO_AND_TWO),
            Ok(Closed::Voted {
                bit: true,
                decided: false
            })
        );
        assert_eq!(
            votes(3 * k + 2, &[0], &TWO_AND_TWO),
            Ok(Closed::Voted {
                bit: false,
                decided: false
            })
        );
        assert_eq!(
            votes(3 * k + 2, &[1], &TWO_AND_TWO),
            Ok(Closed::Voted {
                bit: true,
                decided: false
            })
        );
    }
}

#[test]
fn the_entry_of_the_round() {
    let strip = [0b10, 0b01, 0b10];
    for round in 1..=9 {
        let tossed = round % 3 == 2;
        assert_eq!(
            votes(3 * round + 2, &strip, &TWO_AND_TWO),
            Ok(Closed::Voted {
                bit: tossed,
                decided: false
            })
        );
    }
}

#[test]
fn quorums_decide() {
    let zeros = [Mark::Bit0, Mark::Bit0, Mark::Bit0, Mark::Bit1];
    assert_eq!(
        votes(3, &[0], &zeros),
        Ok(Closed::Voted {
            bit: false,
            decided: true
        })
    );
    assert_eq!(
        votes(4, &[0], &zeros),
        Ok(Closed::Voted {
            bit: false,
            decided: false
        })
    );
    let kept = close_item::<Bearing>(
        &Close {
            step: 3,
            bit: true,
            decided: true,
            ..FOUR
        },
        &[0],
        &[],
        &zeros,
    );
    assert_eq!(
        kept,
        Ok(Closed::Voted {
            bit: true,
            decided: true
        })
    );
}

#[test]
fn the_last_step_and_the_longest_period() {
    assert!(votes(302, &[0], &TWO_AND_TWO).is_ok());
    assert_eq!(votes(303, &[0], &[]), Err(Refusal::Over));
    let alone = Close { n: 1, ..FOUR };
    let lamp = |period| close_item(&alone, &[0], &[Some(Lamp::Flashing(period))], &[]);
    assert_eq!(
        lamp(600),
        Ok(Closed::Polled {
            value: Some(Lamp::Flashing(600))
        })
    );
    assert_eq!(lamp(601), Err(Refusal::StrangeReading));
    assert_eq!(lamp(0), Err(Refusal::StrangeReading));
}

#[test]
fn the_refusals_of_a_closing() {
    let cells = bearings(&[1, 2, 3, 4]);
    let close = |close: Close, strip: &[u16]| close_item(&close, strip, &cells, &[]);
    assert_eq!(close(FOUR, &[]), Err(Refusal::Short));
    assert_eq!(close(FOUR, &[0; 1025]), Err(Refusal::Short));
    assert!(close(FOUR, &[0; 1024]).is_ok());
    assert_eq!(close(Close { n: 0, ..FOUR }, &[0]), Err(Refusal::BadSize));
    assert_eq!(close(Close { n: 17, ..FOUR }, &[0]), Err(Refusal::BadSize));
    assert_eq!(close(Close { n: 5, ..FOUR }, &[0]), Err(Refusal::Short));
    assert_eq!(close(Close { node: 4, ..FOUR }, &[0]), Err(Refusal::NoNode));
    assert_eq!(
        close(Close { item: 16, ..FOUR }, &[0]),
        Err(Refusal::NoItem)
    );
}

#[test]
fn a_poll() {
    let octets = [b'P', 0, 1, 3, 2, 1, 0x03, 0xE8, 0, 0, 0];
    let message = Message {
        step: 1,
        node: 3,
        items: Items::Poll(vec![Some(Bearing(1000)), None]),
    };
    assert_eq!(read_message(4, 2, &octets), Ok(message.clone()));
    let mut place = [7; 12];
    assert_eq!(write_message(4, 2, &message, &mut place), Ok(11));
    assert_eq!(place[..11], octets);
    assert_eq!(place[11], 7);
    let short = Fault {
        refusal: Refusal::Short,
        layer: 2,
        place: 0,
    };
    assert_eq!(write_message(4, 2, &message, &mut place[..10]), Err(short));
}

#[test]
fn bits_in_the_last_step() {
    let octets = [b'B', 1, 0x2E, 0, 9, 2, 1];
    let mut bits = vec![false; 9];
    bits[1] = true;
    bits[8] = true;
    let message = Message {
        step: 302,
        node: 0,
        items: Items::Bits(bits),
    };
    assert_eq!(read_message::<Lamp>(4, 9, &octets), Ok(message.clone()));
    let mut place = [0; octets::MESSAGE_OCTETS];
    assert_eq!(write_message(4, 9, &message, &mut place), Ok(7));
    assert_eq!(place[..7], octets);
}

#[test]
fn the_faults_of_the_reader() {
    let fault = |n, m, octets: &[u8]| {
        let fault = read_message::<Lamp>(n, m, octets).unwrap_err();
        (fault.refusal.number(), fault.layer, fault.place)
    };
    assert_eq!(fault(17, 1, b""), (1, 2, 0));
    assert_eq!(fault(4, 1, b"E\0\x02"), (10, 2, 3));
    assert_eq!(fault(4, 1, b"e\0\x02\0\x01"), (11, 2, 0));
    assert_eq!(fault(4, 1, b"E\0\x02\0\x01"), (10, 2, 5));
    assert_eq!(fault(4, 1, b"E\0\x03\x04\x01\x01\x04\0\0"), (3, 2, 3));
    assert_eq!(fault(4, 1, b"E\0\x03\x03\x01\x01\x04\0\0"), (13, 2, 1));
    assert_eq!(fault(4, 1, b"E\0\x02\x03\x01\x01\x04\0\0"), (12, 1, 5));
    assert_eq!(fault(4, 1, b"E\0\x02\x03\x01\x02\x01\0\0"), (12, 2, 5));
    assert_eq!(fault(4, 1, b"F\0\x03\x03\x01\x02"), (12, 2, 5));
}

#[test]
fn the_faults_of_the_writer() {
    let fault = |n, m, message: Message<Lamp>| {
        let fault = write_message(n, m, &message, &mut [0; octets::MESSAGE_OCTETS]).unwrap_err();
        (fault.refusal.number(), fault.layer, fault.place)
    };
    let lamps = |lamps: &[Cell<Lamp>]| Message {
        step: 1,
        node: 4,
        items: Items::Poll(lamps.to_vec()),
    };
    assert_eq!(fault(4, 0, lamps(&[])), (1, 2, 0));
    assert_eq!(fault(4, 1, lamps(&[])), (10, 2, 0));
    assert_eq!(fault(4, 1, lamps(&[None, None])), (10, 2, 8));
    assert_eq!(
        fault(4, 2, lamps(&[None, Some(Lamp::Standby(0))])),
        (12, 1, 9)
    );
    assert_eq!(fault(4, 1, lamps(&[None])), (3, 2, 3));
    assert_eq!(
        fault(
            5,
            1,
            Message {
                step: 2,
                ..lamps(&[None])
            }
        ),
        (13, 2, 1)
    );
}

#[test]
fn words() {
    let table = [
        "no roll",
        "short",
        "no seat",
        "no item",
        "sound sender",
        "stray seat",
        "wrong side",
        "said already",
        "over",
        "torn",
        "strange letter",
        "strange reading",
        "out of turn",
    ];
    for (refusal, word) in Refusal::ALL.into_iter().zip(table) {
        assert_eq!(refusal.to_string(), word);
        assert_eq!(Refusal::of(refusal.number()), Some(refusal));
    }
    assert_eq!(octets::refusal_word(0, &mut [0; 15]), 0);
    assert_eq!(octets::refusal_word(14, &mut [0; 15]), 0);
    assert_eq!(octets::refusal_word(12, &mut [0; 14]), 0);
}
