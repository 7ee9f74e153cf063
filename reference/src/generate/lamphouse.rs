//! Lines of single closings.

use super::damage::damage;
use super::{entry, number, Generated};
use crate::lamphouse::LIMIT;
use crate::lines::print_octets;
use crate::protocol::{quorum, weak_quorum, Bearing, Lamp};
use crate::random::Random;

/// How many nodes back the first choice: around the quorums.
fn backers(random: &mut Random, n: usize) -> usize {
    let around = random.pick(&[quorum(n), quorum(n), weak_quorum(n), n, 0]);
    (around + random.below(3)).saturating_sub(1).min(n)
}

/// One of three choices for each of n nodes; the first has a chosen number.
fn choices(random: &mut Random, n: usize) -> Vec<usize> {
    let first = backers(random, n);
    let second = random.pick(&[n, weak_quorum(n), weak_quorum(n).saturating_sub(1)]);
    let mut choices: Vec<usize> = (0..n)
        .map(|node| match node {
            _ if node < first => 0,
            _ if node < first + second => 1,
            _ => random.range(1, 2),
        })
        .collect();
    random.shuffle(&mut choices);
    choices
}

fn cell<R: Generated>(random: &mut Random, reading: Option<R>) -> String {
    let Some(reading) = reading else {
        return "-".into();
    };
    let mut octets = [0; 8];
    reading
        .alias(random)
        .write(&mut octets)
        .expect("no reading is wider than 8 octets");
    let mut digits = Vec::new();
    print_octets(&octets[..R::WIDTH], &mut digits);
    String::from_utf8(digits).expect("digits")
}

fn line<R: Generated>(random: &mut Random) -> Vec<u8> {
    const STEPS: [usize; 16] = [1, 1, 2, 2, 2, 3, 4, 5, 6, 7, 8, 300, 301, 302, 303, 0];
    const ODD: [usize; 8] = [0, 16, 17, 255, 256, 257, 65536, 99999];
    let mut n = random.range(1, 16);
    let step = if random.chance(60) {
        random.pick(&STEPS)
    } else {
        random.range(3, 302)
    };
    let heard: Vec<String> = if step == 1 || step == 2 {
        let readings = [Some(R::any(random)), Some(R::any(random)), None];
        choices(random, n)
            .iter()
            .map(|&choice| cell(random, readings[choice]))
            .collect()
    } else {
        let odd = random.pick(&[0, 0, 1, 4, 255]);
        let mut marks = [2, 3, odd];
        if random.chance(50) {
            marks.swap(0, 1);
        }
        choices(random, n)
            .iter()
            .map(|&choice| format!("{:02X}", marks[choice]))
            .collect()
    };
    let mut heard = heard;
    match random.below(20) {
        0 => heard.truncate(n - 1),
        1 => heard.clear(),
        2 | 3 => {
            // More than is looked at.
            for _ in n..random.range(n, 16) {
                heard.push(heard[0].clone());
            }
        }
        4 => n = random.pick(&ODD),
        _ => {}
    }
    let mut node = random.below(n.clamp(1, 16));
    let mut item = random.below(16);
    let mut bit = random.below(2);
    match random.below(24) {
        0 => node = n,
        1 => node = random.pick(&ODD),
        2 => item = 16,
        3 => item = random.pick(&ODD),
        4 => bit = 2,
        5 => bit = random.pick(&ODD),
        _ => {}
    }
    let decided = usize::from(random.chance(15));
    let entries = if random.chance(3) {
        "-".into()
    } else {
        let most = if random.chance(3) { 9 } else { 8 };
        let count = random.range(1, most);
        (0..count)
            .map(|_| entry(random))
            .collect::<Vec<_>>()
            .join(",")
    };
    let mut fields = vec![R::LETTER.to_string()];
    for value in [n, node, step, item, bit, decided] {
        fields.push(number(random, value));
    }
    fields.push(entries);
    fields.extend(heard);
    let mut line = fields.join(" ").into_bytes();
    if random.chance(20) {
        for _ in 0..random.pick(&[1, 1, 1, 2]) {
            damage(random, &mut line, LIMIT);
        }
    }
    // The lines of one node's run are not in the reference.
    if matches!(line.first(), Some(b'N' | b'M' | b'C')) {
        line[0] = b'X';
    }
    line
}

/// Some hundred lines of closings.
pub fn lamphouse(seed: u64) -> Vec<u8> {
    let mut random = Random::new(seed);
    let mut script = Vec::new();
    for _ in 0..random.range(200, 500) {
        if random.chance(50) {
            script.extend(line::<Bearing>(&mut random));
        } else {
            script.extend(line::<Lamp>(&mut random));
        }
        script.push(b'\n');
    }
    if random.chance(30) {
        script.pop();
    }
    script
}
