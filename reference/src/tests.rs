//! Properties of generated runs.

use crate::compare::{line_count, What};
use crate::generate::{self, run_script, Generated, Shape};
use crate::harbour::{harbour, Harbour, Run, Stage, State};
use crate::lamphouse::Lamphouse;
use crate::protocol::*;
use crate::random::Random;
use crate::wire;
use std::collections::BTreeSet;

fn shape(random: &mut Random) -> Shape {
    let n = random.range(1, 16);
    Shape {
        n,
        m: random.range(1, 4),
        faulty: (n - 1) / 3,
        lamps: random.chance(50),
        damage: random.pick(&[0, 0, 20]),
        budget: 700,
        closes: random.range(3, 60),
    }
}

/// What a run promises, watched from close to close.
struct Watch<R> {
    began: Vec<Option<R>>,
    shown: Vec<Option<Option<R>>>,
}

fn same<R: Reading>(one: Option<R>, other: Option<R>) -> bool {
    one.map(R::meaning) == other.map(R::meaning)
}

impl<R: Reading> Watch<R> {
    fn new(instance: &Instance<R>) -> Watch<R> {
        let (n, m) = (instance.n(), instance.m());
        let began = (0..n * m)
            .map(|place| instance.value(place / m, place % m))
            .collect();
        Watch {
            began,
            shown: vec![None; n * m],
        }
    }

    /// Gives the number of items that some honest node has decided.
    fn check(&mut self, instance: &Instance<R>) -> usize {
        let (n, m) = (instance.n(), instance.m());
        let honest: Vec<usize> = (0..n).filter(|&node| !instance.is_faulty(node)).collect();
        if 3 * (n - honest.len()) >= n {
            return 0;
        }
        let mut items = 0;
        for item in 0..m {
            let began = |node: usize| self.began[node * m + item];
            let alike = honest
                .iter()
                .all(|&node| same(began(node), began(honest[0])));
            let mut first: Option<Option<R>> = None;
            for &node in &honest {
                let place = node * m + item;
                let shown = match instance.decision(node, item).expect("an honest node") {
                    Decision::Undecided => None,
                    Decision::Decided(cell) => Some(cell),
                };
                if self.shown[place].is_some() {
                    assert_eq!(shown, self.shown[place], "a decision lasts unchanged");
                }
                self.shown[place] = shown;
                let Some(cell) = shown else {
                    assert!(!alike || instance.step() < 5, "unanimity");
                    continue;
                };
                assert!(same(*first.get_or_insert(cell), cell), "agreement");
                if cell.is_some() {
                    let backers = honest
                        .iter()
                        .filter(|&&node| same(began(node), cell))
                        .count();
                    assert!(2 * backers > honest.len(), "majority");
                }
                if alike {
                    assert!(same(cell, began(node)), "unanimity");
                }
            }
            items += usize::from(first.is_some());
        }
        items
    }
}

/// Closes every item again by `close_item` and compares.
fn check_close<R: Reading>(before: &Instance<R>, after: &Instance<R>, coin: &Strip) {
    let n = before.n();
    for node in (0..n).filter(|&node| !before.is_faulty(node)) {
        for item in 0..before.m() {
            let cells: Vec<Option<R>> = (0..n)
                .map(|sender| before.heard_cell(sender, node, item))
                .collect();
            let marks: Vec<u8> = (0..n)
                .map(|sender| {
                    before
                        .heard_bit(sender, node, item)
                        .map_or(0, |bit| 2 + u8::from(bit))
                })
                .collect();
            let decided = before.is_decided(node, item);
            let bit = before.bit(node, item).into();
            let place = Place {
                n,
                node,
                step: before.step(),
                item,
                bit,
                decided,
            };
            match close_item(place, coin, &cells, &marks).expect("nothing to refuse") {
                Closed::Polled { value } => assert_eq!(value, after.value(node, item)),
                Closed::Graded { value, bit, .. } => {
                    assert_eq!(
                        (value, bit),
                        (after.value(node, item), after.bit(node, item))
                    );
                }
                Closed::Voted { bit, decided } => {
                    assert_eq!(before.value(node, item), after.value(node, item));
                    assert_eq!(
                        (bit, decided),
                        (after.bit(node, item), after.is_decided(node, item))
                    );
                }
            }
        }
    }
}

fn watch<R: Generated>(script: &[u8], run: impl Fn(&Harbour) -> Option<&Run<R>>) -> usize {
    let mut harbour = Harbour::new();
    let mut watch: Option<Watch<R>> = None;
    let mut before: Option<Instance<R>> = None;
    let mut items = 0;
    for line in script.split_inclusive(|&octet| octet == b'\n') {
        harbour.feed(line, &mut Vec::new());
        let Some(Run {
            stage: Stage::Instance(instance),
            strip,
        }) = run(&harbour)
        else {
            continue;
        };
        if let Some(before) = before
            .as_ref()
            .filter(|before| before.step() < instance.step())
        {
            check_close(before, instance, strip);
        }
        before = Some(instance.clone());
        items = watch
            .get_or_insert_with(|| Watch::new(instance))
            .check(instance);
    }
    items
}

#[test]
fn promises_are_kept() {
    let mut random = Random::new(1);
    let mut items = 0;
    for seed in 0..250 {
        let script = run_script(seed, shape(&mut random));
        items += watch(&script, |harbour| match &harbour.state {
            State::Bearings(run) => Some(run),
            _ => None,
        });
        items += watch(&script, |harbour| match &harbour.state {
            State::Lamps(run) => Some(run),
            _ => None,
        });
    }
    assert!(items > 200, "only {items} decided items");
}

/// For each item whether it is undecided after so many accepted closes.
/// Nothing where a third of the nodes or more are faulty.
fn waiting(script: &[u8], closes: usize) -> Vec<bool> {
    let mut harbour = Harbour::new();
    for line in script.split_inclusive(|&octet| octet == b'\n') {
        harbour.feed(line, &mut Vec::new());
        if let State::Bearings(Run {
            stage: Stage::Instance(instance),
            ..
        }) = &harbour.state
        {
            let faulty = (0..instance.n())
                .filter(|&node| instance.is_faulty(node))
                .count();
            if 3 * faulty >= instance.n() {
                return Vec::new();
            }
            if instance.step() == closes + 1 {
                return (0..instance.m())
                    .map(|item| {
                        (0..instance.n()).any(|node| {
                            !instance.is_faulty(node) && !instance.is_decided(node, item)
                        })
                    })
                    .collect();
            }
        }
    }
    Vec::new()
}

#[test]
fn one_row_of_tosses_delays() {
    const ROUNDS: usize = 4;
    let mut random = Random::new(2);
    let mut delayed = 0;
    for seed in 0..60 {
        let n = random.pick(&[4, 7, 10]);
        let script = run_script(
            seed,
            Shape {
                n,
                m: 2,
                faulty: (n - 1) / 3,
                lamps: false,
                damage: 0,
                budget: 2000,
                closes: 30,
            },
        );
        let mut counts = vec![0; 2];
        for row in 0..1 << ROUNDS {
            let entries = (0..ROUNDS).map(|round| {
                if row >> round & 1 == 1 {
                    " FFFF"
                } else {
                    " 0000"
                }
            });
            let strip = format!("T{}\n", entries.collect::<String>());
            let mut changed = Vec::new();
            for line in script.split_inclusive(|&octet| octet == b'\n') {
                if line == b"O\n" {
                    changed.extend_from_slice(strip.as_bytes());
                }
                changed.extend_from_slice(line);
            }
            for (item, waits) in waiting(&changed, 3 * ROUNDS + 4).into_iter().enumerate() {
                counts[item] += usize::from(waits);
            }
        }
        assert!(
            counts.iter().all(|&count| count <= 1),
            "seed {seed}: {counts:?}"
        );
        delayed += counts.iter().sum::<usize>();
    }
    assert!(delayed > 10, "only {delayed} delays");
}

#[test]
fn chunks_do_not_matter() {
    let mut random = Random::new(3);
    for seed in 0..60 {
        let script = generate::harbour(seed);
        let (mut harbour, mut out) = (Harbour::new(), Vec::new());
        let most = random.pick(&[1, 3, 70, 500]);
        let mut rest = &script[..];
        while !rest.is_empty() {
            let (chunk, after) = rest.split_at(random.range(0, most).min(rest.len()));
            harbour.feed(chunk, &mut out);
            rest = after;
        }
        harbour.finish(&mut out);
        assert!(out == What::Harbour.answer(&script), "seed {seed}");

        let script = generate::lamphouse(seed);
        let (mut lamphouse, mut out) = (Lamphouse::new(), Vec::new());
        for chunk in script.chunks(most) {
            lamphouse.feed(chunk, &mut out);
        }
        lamphouse.finish(&mut out);
        assert!(out == What::Lamphouse.answer(&script), "seed {seed}");
    }
}

fn numbers(output: &[u8], word: &str, field: usize) -> BTreeSet<usize> {
    String::from_utf8_lossy(output)
        .lines()
        .map(|line| line.split(' ').collect::<Vec<_>>())
        .filter(|fields| fields.get(1) == Some(&word))
        .map(|fields| fields[field].parse().expect("a number"))
        .collect()
}

#[test]
fn generated_inputs_reach_far() {
    let (mut refusals, mut closings, mut faults) =
        (BTreeSet::new(), BTreeSet::new(), BTreeSet::new());
    let (mut tossed, mut ended) = (0, 0);
    for seed in 0..400 {
        let script = generate::harbour(seed);
        let output = harbour(&script);
        refusals.extend(numbers(&output, "refused", 2));
        // The same script with every entry turned round.
        let text = String::from_utf8_lossy(&script).into_owned();
        let turned: String = text
            .split_inclusive('\n')
            .map(|line| match line.strip_prefix("T ") {
                Some(entries) => {
                    let turn = |digit: char| char::from_digit(15 - digit.to_digit(16)?, 16);
                    let turn =
                        |digit| turn(digit).map_or(digit, |digit| digit.to_ascii_uppercase());
                    format!("T {}", entries.chars().map(turn).collect::<String>())
                }
                None => line.to_string(),
            })
            .collect();
        tossed += usize::from(harbour(turned.as_bytes()) != harbour(text.as_bytes()));
        ended += usize::from(text.matches("\nC\n").count() >= 302);
        if seed < 20 {
            closings.extend(numbers(
                &What::Lamphouse.answer(&generate::lamphouse(seed)),
                "refused",
                2,
            ));
            let answers = wire::read_lines(&generate::wire(seed));
            faults.extend(numbers(&answers, "fault", 2));
            assert!(line_count(&answers) >= 200);
            assert!(!String::from_utf8_lossy(&answers).contains("malformed"));
        }
    }
    assert_eq!(refusals, [1, 3, 4, 5, 6, 7, 8, 9, 10, 11, 12, 13].into());
    assert_eq!(closings, [1, 2, 3, 4, 7, 9, 10, 11, 12].into());
    assert_eq!(faults, [1, 3, 10, 11, 12, 13].into());
    assert!(tossed > 50, "tosses matter in {tossed} scripts only");
    assert!(ended > 5, "{ended} long scripts only");
}

fn round_trip<R: Generated>(seed: u64) -> usize {
    let mut read = 0;
    for line in String::from_utf8(generate::wire(seed))
        .expect("plain lines")
        .lines()
    {
        let fields: Vec<&str> = line.split(' ').collect();
        let octets = crate::lines::octets(fields[3].replace('-', "").as_bytes()).expect("octets");
        let (n, m) = (fields[1].parse().expect("n"), fields[2].parse().expect("m"));
        if let Ok(message) = wire::read::<R>(n, m, &octets) {
            let mut place = vec![170; octets.len() + 1];
            assert_eq!(wire::write(n, m, &message, &mut place), Ok(octets.len()));
            assert_eq!(place.split_last(), Some((&170, &octets[..])));
            read += 1;
        }
    }
    read
}

#[test]
fn messages_that_are_read_are_written_alike() {
    let read: usize = (0..20)
        .map(|seed| round_trip::<Bearing>(seed) + round_trip::<Lamp>(seed))
        .sum();
    assert!(read > 500, "only {read} good messages");
}
