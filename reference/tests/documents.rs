//! The examples of the documents.

use reference::harbour::{harbour, Harbour, Refused};
use reference::lamphouse::lamphouse;
use reference::protocol::{
    close_item, quorum, weak_quorum, Bearing, Closed, Decision, Fault, Instance, Lamp, Period,
    Place, Reading, Refusal, Setup, Strip,
};

fn text(octets: Vec<u8>) -> String {
    String::from_utf8(octets).expect("output is plain")
}

fn lamp(letter: char, tenths: usize) -> Lamp {
    let period = Period::new(tenths).expect("1 to 600");
    if letter == 'F' {
        Lamp::Flashing(period)
    } else {
        Lamp::Standby(period)
    }
}

#[test]
fn harbour_example() {
    let script =
        "N 4 1 B\nX 3\nI 0 0 1000\nI 1 0 1000\nI 2 0 37000\nO\nS 3 0 0 500\nS 3 0 0 1000\n\
                  C\nC\nL 2 0\nC\nL 2 0\nZ\n";
    let wanted = "8 refused 8\n11 2 0 open\n13 2 0 1000\n0 1000\n1 1000\n2 1000\n";
    assert_eq!(text(harbour(script.as_bytes())), wanted);
    assert_eq!(text(harbour(script.trim_end().as_bytes())), wanted);
}

#[test]
fn lamphouse_example() {
    let script = "B 4 0 1 0 0 0 0000 03E8 03E8 9088 01F4\nB 4 0 2 0 0 0 0000 03E8 03E8 - -\n\
                  B 4 0 3 0 1 0 0000 02 02 02 03\nB 4 0 4 0 0 0 0000 02 02 03 03\n\
                  B 4 0 5 0 0 0 0001 02 02 03 03\nL 1 0 1 0 0 0 0000 020258\n\
                  L 1 0 1 0 0 0 0000 020259\nB 4 0 303 0 0 0 0000\n";
    let wanted = "1 value 03E8\n2 value 03E8 grade 1 bit 1\n3 bit 0 decided\n4 bit 1 undecided\n\
                  5 bit 1 undecided\n6 value 020258\n7 refused 12\n8 refused 9\n";
    assert_eq!(text(lamphouse(script.as_bytes())), wanted);
}

#[test]
fn lamphouse_checks() {
    for (line, number) in [
        ("", 10),
        (&"A".repeat(200)[..], 11),
        (&"A".repeat(201)[..], 10),
        ("BB 4 0 1 0 0 0 0000", 11),
        (" B 4 0 1 0 0 0 0000", 11),
        ("B\r 4 0 1 0 0 0 0000", 11),
        ("B 4 0 1 0 0 0", 10),
        (
            "B 1 0 3 0 0 0 0000 00 00 00 00 00 00 00 00 00 00 00 00 00 00 00 00 00",
            10,
        ),
        ("B 4 0 1 0 0 2 -", 12),
        ("B 000004 0 1 0 0 0 -", 12),
        ("B 17 0 1 0 0 0 -", 2),
        ("B 17 0 1 0 0 0 0000,", 12),
        ("B 17 0 1 0 0 0 0,0,0,0,0,0,0,0,0", 12),
        ("B 17 0 1 0 0 0 000f", 12),
        ("B 17 0 1 0 0 0 0000 0", 12),
        ("B 17 0 1 0 0 0 0000", 1),
        ("B 0 0 1 0 0 0 0000", 1),
        ("B 1 9 1 16 2 0 0000", 2),
        ("B 1 9 303 16 2 0 0000", 3),
        ("B 1 0 303 16 2 0 0000", 4),
        ("B 1 0 303 15 2 0 0000", 7),
        ("B 1 0 303 15 1 0 0000", 9),
        ("B 1 0 0 15 1 0 0000 -", 12),
        ("B 1 0 3 15 1 0 0000 -", 12),
        ("B 1 0 2 15 1 0 0000 02", 12),
        ("L 1 0 2 15 1 0 0000 010001", 12),
        ("B 1 0 1 0 0 0 0000 ", 12),
    ] {
        // An empty line counts only before octet 10.
        let answer = text(lamphouse(format!("{line}\n").as_bytes()));
        assert_eq!(answer, format!("1 refused {number}\n"), "{line}");
    }
    assert_eq!(
        text(lamphouse(b"B 1 0 3 0 1 00001 0000 02 FF 09\n")),
        "1 bit 1 decided\n"
    );
    assert_eq!(
        text(lamphouse(b"B 1 0 3 0 1 0 0000 FF")),
        "1 bit 0 undecided\n"
    );
    assert_eq!(text(lamphouse(b"")), "");
    assert_eq!(text(lamphouse(b"\n\n")), "1 refused 10\n2 refused 10\n");
}

#[test]
fn quorums() {
    let strong = [1, 2, 3, 3, 4, 5, 5, 6, 7, 7, 8, 9, 9, 10, 11, 11];
    let weak = [1, 1, 2, 2, 2, 3, 3, 3, 4, 4, 4, 5, 5, 5, 6, 6];
    for n in 1..=16 {
        assert_eq!((quorum(n), weak_quorum(n)), (strong[n - 1], weak[n - 1]));
    }
}

#[test]
fn meanings() {
    assert!(Bearing(36000).same(Bearing(0)));
    assert!(!Bearing(35999).same(Bearing(0)));
    assert!(!lamp('F', 35).same(lamp('T', 35)));
    assert!(!Lamp::Dark.same(Lamp::Steady));
    assert_eq!(Lamp::read(&[2, 2, 88]), Ok(lamp('F', 600)));
    assert_eq!(Lamp::read(&[2, 2, 89]), Err(Refusal::StrangeReading));
    assert_eq!(Lamp::read(&[3, 0, 0]), Err(Refusal::StrangeReading));
    assert_eq!(Lamp::read(&[0, 0, 1]), Err(Refusal::StrangeReading));
    assert_eq!(Lamp::read(&[4, 0, 1]), Err(Refusal::StrangeReading));
    assert_eq!(Lamp::read(&[0, 0]), Err(Refusal::StrangeReading));
    assert_eq!(Bearing::read(&[255, 254]), Ok(Bearing(65534)));
    assert_eq!(Bearing::read(&[0, 0, 0]), Err(Refusal::StrangeReading));
    assert_eq!(Lamp::Dark.write(&mut [0; 2]), Err(Refusal::Short));
    let mut place = [9; 4];
    assert_eq!(lamp('T', 258).write(&mut place), Ok(()));
    assert_eq!(place, [3, 1, 2, 9]);
}

#[test]
fn readings_round_trip() {
    for number in 0..1u32 << 24 {
        let octets = &number.to_be_bytes()[1..];
        if let Ok(lamp) = Lamp::read(octets) {
            let mut place = [0; 3];
            lamp.write(&mut place).expect("wide enough");
            assert_eq!(place, octets);
        }
    }
}

fn place(step: usize) -> Place {
    Place {
        n: 4,
        node: 0,
        step,
        item: 0,
        bit: 0,
        decided: false,
    }
}

fn strip(entries: &[u16]) -> Strip {
    Strip::new(entries.to_vec()).expect("1 to 1024 entries")
}

#[test]
fn worked_closings() {
    let cells = |cells: [i32; 4]| cells.map(|cell| u16::try_from(cell).ok().map(Bearing));
    let poll = |heard| close_item(place(1), &strip(&[0]), &cells(heard), &[]);
    assert_eq!(
        poll([1000, 1000, 37000, 500]),
        Ok(Closed::Polled {
            value: Some(Bearing(1000))
        })
    );
    assert_eq!(
        poll([37000, 1000, 1000, 500]),
        Ok(Closed::Polled {
            value: Some(Bearing(37000))
        })
    );
    assert_eq!(
        poll([1000, 1000, 500, -1]),
        Ok(Closed::Polled { value: None })
    );
    let echo = |heard| close_item(place(2), &strip(&[0]), &cells(heard), &[]);
    for (heard, value, grade) in [
        ([7, 7, 7, -1], Some(Bearing(7)), 2),
        ([-1, 7, -1, 7], Some(Bearing(7)), 1),
        ([8, 7, 8, 7], Some(Bearing(8)), 1),
        ([-1, 7, -1, -1], None, 0),
    ] {
        assert_eq!(
            echo(heard),
            Ok(Closed::Graded {
                value,
                grade,
                bit: grade != 2
            })
        );
    }
    let vote = |step, marks: [u8; 4], entry| {
        close_item::<Bearing>(place(step), &strip(&[entry]), &[], &marks)
    };
    let voted = |bit, decided| Ok(Closed::Voted { bit, decided });
    for step in [3, 6, 300] {
        assert_eq!(vote(step, [2, 2, 3, 3], 0), voted(false, false));
        assert_eq!(vote(step, [2, 2, 2, 3], 0), voted(false, true));
        assert_eq!(vote(step, [3, 2, 3, 3], 0), voted(true, false));
        assert_eq!(vote(step + 1, [2, 2, 3, 3], 0), voted(true, false));
        assert_eq!(vote(step + 1, [2, 2, 2, 3], 0), voted(false, false));
        assert_eq!(vote(step + 1, [3, 2, 3, 3], 0), voted(true, true));
        assert_eq!(vote(step + 2, [2, 2, 3, 3], 0), voted(false, false));
        assert_eq!(vote(step + 2, [2, 2, 3, 3], 1), voted(true, false));
        assert_eq!(vote(step + 2, [2, 2, 2, 3], 1), voted(false, false));
        assert_eq!(vote(step + 2, [3, 2, 3, 3], 0), voted(true, false));
        assert_eq!(vote(step, [2, 2, 1, 0], 0), voted(false, false));
        assert_eq!(vote(step + 1, [3, 3, 4, 255], 0), voted(true, false));
    }
    let kept = Place {
        bit: 1,
        decided: true,
        ..place(3)
    };
    assert_eq!(
        close_item::<Bearing>(kept, &strip(&[0]), &[], &[2, 2, 2, 2]),
        voted(true, true)
    );
}

/// Four nodes, one item, node 3 faulty, the others begin with 7, 7 and 8.
fn opened(begin: [u16; 3]) -> Instance<Bearing> {
    let mut setup = Setup::new(4, 1).expect("a good size");
    setup.mark_faulty(3).expect("a node");
    for (node, reading) in begin.into_iter().enumerate() {
        setup
            .propose(node, 0, Some(Bearing(reading)))
            .expect("an honest node");
    }
    setup.open()
}

fn state(instance: &Instance<Bearing>) -> ([i32; 3], [u8; 3]) {
    let values = [0, 1, 2].map(|node| {
        instance
            .value(node, 0)
            .map_or(-1, |bearing| bearing.0.into())
    });
    (values, [0, 1, 2].map(|node| instance.bit(node, 0).into()))
}

/// The run that is told with the promises, up to the toss.
fn divided(toss: u16) -> Instance<Bearing> {
    let coin = strip(&[toss]);
    let mut run = opened([7, 7, 8]);
    run.send_value(3, 0, 0, Some(Bearing(7))).unwrap();
    run.send_value(3, 1, 0, Some(Bearing(7))).unwrap();
    run.close(&coin).unwrap();
    assert_eq!(state(&run).0, [7, 7, -1]);
    run.send_value(3, 0, 0, Some(Bearing(7))).unwrap();
    run.close(&coin).unwrap();
    assert_eq!(state(&run), ([7, 7, 7], [0, 1, 1]));
    run.send_bit(3, 0, 0, 1).unwrap();
    run.close(&coin).unwrap();
    assert_eq!(state(&run).1, [1, 0, 0]);
    run.send_bit(3, 0, 0, 0).unwrap();
    run.close(&coin).unwrap();
    assert_eq!(state(&run).1, [0, 1, 1]);
    run.send_bit(3, 0, 0, 1).unwrap();
    run.close(&coin).unwrap();
    run
}

#[test]
fn divided_run() {
    let mut run = divided(0);
    let coin = strip(&[0]);
    assert_eq!(state(&run).1, [1, 0, 0]);
    run.close(&coin).unwrap();
    assert_eq!(state(&run).1, [0, 0, 0]);
    run.close(&coin).unwrap();
    assert_eq!(run.decision(0, 0), Ok(Decision::Undecided));
    run.close(&coin).unwrap();
    run.close(&coin).unwrap();
    for node in 0..3 {
        assert_eq!(
            run.decision(node, 0),
            Ok(Decision::Decided(Some(Bearing(7))))
        );
    }
    assert_eq!(run.step(), 10);
    assert_eq!(run.close(&coin), Err(Refusal::Over));

    let mut run = divided(1);
    let coin = strip(&[1]);
    assert_eq!(state(&run).1, [1, 1, 1]);
    run.close(&coin).unwrap();
    run.close(&coin).unwrap();
    for node in 0..3 {
        assert_eq!(run.decision(node, 0), Ok(Decision::Decided(None)));
    }
}

#[test]
fn unanimous_runs() {
    let coin = strip(&[0]);
    let mut run = opened([7, 7, 7]);
    for _ in 0..3 {
        run.close(&coin).unwrap();
    }
    assert_eq!(run.close(&coin), Err(Refusal::Over));
    assert_eq!(run.decision(1, 0), Ok(Decision::Decided(Some(Bearing(7)))));

    let mut setup = Setup::<Bearing>::new(4, 1).unwrap();
    setup.mark_faulty(3).unwrap();
    let mut run = setup.open();
    for _ in 0..3 {
        run.close(&coin).unwrap();
    }
    assert_eq!(run.decision(1, 0), Ok(Decision::Undecided));
    run.close(&coin).unwrap();
    assert_eq!(run.decision(1, 0), Ok(Decision::Decided(None)));
}

#[test]
fn endless_run() {
    let coin = strip(&[1]);
    let mut run = opened([7, 7, 8]);
    for receiver in [0, 1] {
        run.send_value(3, receiver, 0, Some(Bearing(7))).unwrap();
    }
    run.close(&coin).unwrap();
    run.send_value(3, 0, 0, Some(Bearing(7))).unwrap();
    run.close(&coin).unwrap();
    for _ in 0..100 {
        run.send_bit(3, 0, 0, 1).unwrap();
        run.close(&coin).unwrap();
        run.send_bit(3, 1, 0, 0).unwrap();
        run.send_bit(3, 2, 0, 0).unwrap();
        run.close(&coin).unwrap();
        run.send_bit(3, 0, 0, 0).unwrap();
        run.close(&coin).unwrap();
    }
    assert_eq!(run.step(), 303);
    assert_eq!(run.decision(0, 0), Ok(Decision::Undecided));
    assert_eq!(run.close(&coin), Err(Refusal::Over));
    assert_eq!(run.send_bit(3, 0, 0, 0), Err(Refusal::Over));
    assert_eq!(run.send_final(3, 0), Err(Refusal::Over));
    assert_eq!(run.send_value(3, 0, 0, None), Err(Refusal::WrongPhase));
    let mut list = [0; 3];
    assert_eq!(run.undecided(&mut list[..2]), Err(Refusal::Short));
    assert_eq!(run.undecided(&mut list), Ok(3));
    assert_eq!(list, [0, 16, 32]);
    assert_eq!(run.end().decision(2, 0), Ok(Decision::Undecided));
}

#[test]
fn nothing_is_promised_at_a_third() {
    let script = "N 4 1 B\nX 2\nX 3\nI 0 0 7\nI 1 0 8\nO\nS 2 0 0 7\nS 3 0 0 7\nS 2 1 0 8\nS 3 1 0 8\n\
                  C\nS 2 0 0 7\nS 3 0 0 7\nS 2 1 0 8\nS 3 1 0 8\nC\nB 2 0 0 0\nB 3 0 0 0\nB 2 1 0 0\n\
                  B 3 1 0 0\nC\nZ\n";
    assert_eq!(text(harbour(script.as_bytes())), "0 7\n1 8\n");
}

#[test]
fn readings_of_one_meaning() {
    let begin =
        "N 4 1 B\nX 0\nI 1 0 1000\nI 2 0 1000\nI 3 0 1000\nO\nS 0 1 0 37000\nC\nS 0 1 0 37000\n";
    let one = format!("{begin}C\nC\nZ\n");
    assert_eq!(text(harbour(one.as_bytes())), "1 37000\n2 37000\n3 37000\n");
    let other = format!("{begin}S 0 2 0 1000\nC\nC\nZ\n");
    assert_eq!(
        text(harbour(other.as_bytes())),
        "1 37000\n2 1000\n3 37000\n"
    );
}

#[test]
fn final_sends() {
    // A final bit stands in later steps, and so does final silence.
    let coin = strip(&[0]);
    let mut run = opened([7, 7, 8]);
    assert_eq!(run.send_final(3, 0), Err(Refusal::WrongPhase));
    for receiver in [0, 1] {
        run.send_value(3, receiver, 0, Some(Bearing(7))).unwrap();
    }
    run.close(&coin).unwrap();
    run.send_value(3, 0, 0, Some(Bearing(7))).unwrap();
    run.close(&coin).unwrap();
    run.send_bit(3, 0, 0, 1).unwrap();
    run.send_final(3, 0).unwrap();
    assert_eq!(run.send_final(3, 0), Err(Refusal::Repeated));
    assert_eq!(run.send_bit(3, 0, 0, 0), Err(Refusal::Repeated));
    assert_eq!(run.send_bit(3, 0, 0, 2), Err(Refusal::WrongPhase));
    run.send_final(3, 1).unwrap();
    assert_eq!(run.send_bit(3, 1, 0, 0), Err(Refusal::Repeated));
    run.close(&coin).unwrap();
    assert_eq!(state(&run).1, [1, 0, 0]);
    assert_eq!(run.heard_bit(3, 0, 0), Some(true));
    assert_eq!(run.heard_bit(3, 1, 0), None);
    assert_eq!(run.send_bit(3, 0, 0, 0), Err(Refusal::Repeated));
    assert_eq!(run.send_bit(3, 1, 0, 0), Err(Refusal::Repeated));
    assert_eq!(run.send_bit(3, 2, 0, 0), Ok(()));
}

#[test]
fn checks_of_the_calls() {
    for (n, m) in [(0, 1), (1, 0), (17, 1), (1, 17), (99999, 1)] {
        assert_eq!(Setup::<Lamp>::new(n, m).err(), Some(Refusal::BadSize));
    }
    let mut setup = Setup::<Lamp>::new(3, 2).unwrap();
    assert_eq!(setup.mark_faulty(3), Err(Refusal::NoNode));
    assert_eq!(setup.mark_faulty(2), Ok(()));
    assert_eq!(setup.mark_faulty(2), Ok(()));
    assert_eq!(setup.propose(3, 2, None), Err(Refusal::NoNode));
    assert_eq!(setup.propose(2, 2, None), Err(Refusal::NoItem));
    assert_eq!(setup.propose(2, 1, None), Err(Refusal::FaultyNode));
    let mut run = setup.open();
    assert_eq!(run.send_value(0, 3, 9, None), Err(Refusal::NoNode));
    assert_eq!(run.send_value(0, 2, 2, None), Err(Refusal::NoItem));
    assert_eq!(run.send_value(0, 2, 1, None), Err(Refusal::HonestSender));
    assert_eq!(run.send_value(2, 2, 1, None), Err(Refusal::FaultyNode));
    assert_eq!(run.send_bit(2, 0, 1, 0), Err(Refusal::WrongPhase));
    assert_eq!(run.send_value(2, 0, 1, None), Ok(()));
    assert_eq!(
        run.send_value(2, 0, 1, Some(Lamp::Dark)),
        Err(Refusal::Repeated)
    );
    assert_eq!(run.decision(3, 2), Err(Refusal::NoNode));
    assert_eq!(run.decision(2, 2), Err(Refusal::NoItem));
    assert_eq!(run.decision(2, 1), Err(Refusal::FaultyNode));
    run.close(&strip(&[0])).unwrap();
    assert_eq!(run.send_value(2, 0, 1, None), Ok(()));

    let mut all_faulty = Setup::<Lamp>::new(1, 1).unwrap();
    all_faulty.mark_faulty(0).unwrap();
    assert_eq!(all_faulty.open().close(&strip(&[0])), Err(Refusal::Over));
}

fn refused(lines: &[&str]) -> Vec<u8> {
    let mut harbour = Harbour::new();
    lines
        .iter()
        .map(|line| harbour.refusal(line.as_bytes()).map_or(0, Refused::number))
        .collect()
}

#[test]
fn harbour_checks() {
    let long = format!("L 0 {}", "0".repeat(56));
    let longer = format!("L 0 {}", "0".repeat(57));
    // Before N is accepted the turn is checked before the fields.
    assert_eq!(
        refused(&[
            "", "X", "X 1 2", "Q", "NN 4 1 B", "N\r", " N 4 1 B", "N 4 1", "N 4 1 B ", "N x 1 B"
        ]),
        [10, 13, 13, 11, 11, 11, 11, 10, 10, 12]
    );
    assert_eq!(refused(&[&long, &longer]), [13, 10]);
    assert_eq!(
        refused(&[
            "N 0 1 B",
            "N 1 17 B",
            "N 99999 1 B",
            "N 100000 1 B",
            "N 4  B",
            "N 4 1 b",
            "N 00004 1 B"
        ]),
        [1, 1, 1, 12, 12, 12, 0]
    );
    // After it the fields come first.
    assert_eq!(
        refused(&[
            "N 4 1 B",
            "N 4 1 B",
            "N 0 1 B",
            "N 4 1",
            "N 4 1 Q",
            &long,
            &longer,
            "X",
            "X 4",
            "X 256",
            "X 3",
            "X 3",
            "X 3 ",
            "X ",
            "I 3 0 1",
            "I 3 1 1",
            "I 0 0 65536",
            "I 0 0 D",
            "C",
            "L 0 0",
            "Z",
            "C ",
            "S 0 0 0 x",
        ]),
        [0, 13, 13, 10, 12, 12, 10, 10, 3, 3, 0, 0, 10, 12, 6, 4, 12, 12, 13, 13, 13, 10, 12]
    );
    assert_eq!(
        refused(&[
            "N 1 1 L",
            "T",
            "T ",
            "T 0000 1 ",
            "T ffff",
            "T 00000",
            "T 0 0 0 0 0 0 0 0 0",
            "T 0000 0000 0000 0000 0000 0000 0000 FFFF",
            "I 0 0 F0600",
            "I 0 0 F0",
            "I 0 0 F601",
            "I 0 0 T000001",
            "I 0 0 D0",
            "I 0 0 -",
            "O",
            "O",
            "T 0000",
            "B 0 0 0 00001",
            "B 0 0 0 -",
            "Z",
            "Z",
            "C",
            "L 0 0",
            "L 0 0 0",
            "Q",
            "O",
            "X 0",
            "N 1 1 L",
        ]),
        [
            0, 10, 12, 12, 12, 12, 10, 0, 0, 12, 12, 12, 12, 0, 0, 13, 13, 5, 12, 0, 13, 13, 0, 10,
            11, 13, 13, 13
        ]
    );
}

#[test]
fn faults_of_lines() {
    let mut harbour = Harbour::new();
    let mut fault = |line: &str| match harbour.refusal(line.as_bytes()) {
        Some(Refused::Line(Fault {
            refusal,
            layer,
            place,
        })) => (refusal.number(), layer, place),
        Some(Refused::Call(refusal)) => (refusal.number(), 0, 0),
        None => (0, 0, 0),
    };
    assert_eq!(fault(""), (10, 3, 0));
    assert_eq!(fault(&"A".repeat(77)), (10, 3, 77));
    assert_eq!(fault("A"), (11, 3, 0));
    assert_eq!(fault("X 0"), (13, 3, 0));
    assert_eq!(fault("N 4 1"), (10, 3, 5));
    assert_eq!(fault("N 4 1 Q"), (12, 3, 6));
    assert_eq!(fault("N 17 1 L"), (1, 0, 0));
    assert_eq!(fault("N 4 1 L"), (0, 0, 0));
    assert_eq!(fault("I 00 x F601"), (12, 3, 5));
    assert_eq!(fault("I 00 0 F601"), (12, 1, 7));
    assert_eq!(fault("I 4 0 F600"), (3, 0, 0));
    assert_eq!(fault("C"), (13, 3, 0));
}

#[test]
fn lines_and_their_ends() {
    assert_eq!(text(harbour(b"")), "");
    assert_eq!(text(harbour(b"\n")), "1 refused 10\n");
    assert_eq!(
        text(harbour(b"\n\nQ")),
        "1 refused 10\n2 refused 10\n3 refused 11\n"
    );
    let mut long = vec![b'Q'; 5000];
    long.extend_from_slice(b"\nQ\n");
    assert_eq!(text(harbour(&long)), "1 refused 10\n2 refused 11\n");
    assert_eq!(
        text(harbour(
            b"N 1 1 L\nI 0 0 F00035\nO\nC\nC\nC\nL 00 000\nZ\nL 0 0\nZ"
        )),
        "7 0 0 F35\n0 F35\n9 0 0 F35\n10 refused 13\n"
    );
}
