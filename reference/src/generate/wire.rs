//! Messages, good and damaged.

use super::Generated;
use crate::lines::print_octets;
use crate::protocol::{Bearing, Lamp};
use crate::random::Random;
use crate::wire::{write, Content, Message};

fn cells<R: Generated>(random: &mut Random, m: usize) -> Vec<Option<R>> {
    let blank = random.pick(&[0, 20, 50, 100]);
    (0..m)
        .map(|_| (!random.chance(blank)).then(|| R::any(random)))
        .collect()
}

/// A good message.
fn message<R: Generated>(random: &mut Random, n: usize, m: usize) -> Vec<u8> {
    const STEPS: [usize; 12] = [3, 4, 5, 6, 7, 255, 256, 257, 299, 300, 301, 302];
    let bit_step = if random.chance(50) {
        random.pick(&STEPS)
    } else {
        random.range(3, 302)
    };
    let ones = random.pick(&[0, 50, 100]);
    let bits = (0..m).map(|_| random.chance(ones)).collect();
    let (step, content) = match random.below(4) {
        0 => (1, Content::Poll(cells::<R>(random, m))),
        1 => (2, Content::Echo(cells::<R>(random, m))),
        2 => (bit_step, Content::Bits(bits)),
        _ => (bit_step, Content::Final(bits)),
    };
    let node = if random.chance(30) {
        n - 1
    } else {
        random.below(n)
    };
    let mut octets = vec![0; 256];
    let length = write(
        n,
        m,
        &Message {
            step,
            node,
            content,
        },
        &mut octets,
    )
    .expect("a good message");
    octets.truncate(length);
    octets
}

/// Damages a message, and now and then what its reader is told.
fn damage<R: Generated>(random: &mut Random, told: &mut (usize, usize), octets: &mut Vec<u8>) {
    const SIZES: [usize; 12] = [0, 1, 15, 16, 17, 18, 255, 256, 257, 272, 65536, 99999];
    let wide = matches!(octets.first(), Some(b'P' | b'E'));
    let (n, m) = *told;
    // The first octet of an item and one of its reading's octets.
    let flag = 5 + random.below(m.clamp(1, 16)) * (1 + R::WIDTH);
    let inner = flag + random.range(1, R::WIDTH);
    let place = random.below(octets.len().max(1));
    let last = octets.len().saturating_sub(1);
    let mut set = |place: usize, octet: u8| {
        if let Some(at) = octets.get_mut(place) {
            *at = octet;
        }
    };
    match random.below(24) {
        0 => told.0 = random.pick(&SIZES),
        1 => told.1 = random.pick(&SIZES),
        2 => set(0, random.pick(b"PEBFpebfABCXQ \0\xff")),
        3 => set(0, random.pick(b"PEBF")),
        4 | 5 => {
            let step = random.pick(&[0u16, 1, 2, 3, 255, 256, 301, 302, 303, 304, 512, 65535]);
            set(1, (step >> 8) as u8);
            set(2, step as u8);
        }
        6 | 7 => set(
            3,
            random.pick(&[0, n.saturating_sub(1) as u8, n as u8, 15, 16, 128, 255]),
        ),
        8 => set(
            4,
            random.pick(&[0, 1, m as u8, m.wrapping_add(1) as u8, 8, 16, 17, 255]),
        ),
        9 => octets.truncate(place),
        10 => octets.truncate(last),
        11 => octets.truncate(random.below(7)),
        12 => octets.push(random.pick(&[0, 1, 255])),
        13 => octets.extend(vec![random.draw() as u8; random.range(1, 25)]),
        14 | 15 => {
            let bit = 1 << random.below(8);
            if let Some(octet) = octets.get_mut(place) {
                *octet ^= bit;
            }
        }
        16 if wide => set(flag, random.pick(&[0, 1, 2, 3, 128, 255])),
        17 if wide => set(inner, random.pick(&[0, 1, 2, 3, 4, 255])),
        18 if wide => {
            set(flag, 0);
            set(inner, random.pick(&[0, 1, 128, 255]));
        }
        19 if wide => {
            // Lamps at the edges of what is read.
            set(flag, 1);
            set(flag + 1, random.below(5) as u8);
            let tenths = random.pick(&[0u16, 1, 255, 256, 511, 512, 600, 601, 856, 65535]);
            set(flag + R::WIDTH - 1, (tenths >> 8) as u8);
            set(flag + R::WIDTH, tenths as u8);
        }
        16..=19 => {
            // Unused bits.
            let bit = 1 << random.below(8);
            if let Some(octet) = octets.last_mut() {
                *octet |= bit;
            }
        }
        20 => set(last, 255),
        21 => octets.clear(),
        22 => {
            *octets = (0..random.range(1, 80))
                .map(|_| random.draw() as u8)
                .collect()
        }
        _ => {
            let octet = random.draw() as u8;
            set(place, octet);
        }
    }
}

fn line<R: Generated>(random: &mut Random, script: &mut Vec<u8>) {
    let (n, m) = (random.range(1, 16), random.range(1, 16));
    let mut told = (n, m);
    let mut octets = message::<R>(random, n, m);
    if random.chance(70) {
        for _ in 0..random.pick(&[1, 1, 1, 2, 3]) {
            damage::<R>(random, &mut told, &mut octets);
        }
    }
    // A line has at most 200 octets.
    octets.truncate(94);
    script.extend_from_slice(format!("{} {} {} ", R::LETTER, told.0, told.1).as_bytes());
    if octets.is_empty() {
        script.push(b'-');
    } else {
        print_octets(&octets, script);
    }
    script.push(b'\n');
}

/// Some hundred lines of messages.
pub fn wire(seed: u64) -> Vec<u8> {
    let mut random = Random::new(seed);
    let mut script = Vec::new();
    for _ in 0..random.range(200, 500) {
        if random.chance(50) {
            line::<Bearing>(&mut random, &mut script);
        } else {
            line::<Lamp>(&mut random, &mut script);
        }
    }
    script
}
