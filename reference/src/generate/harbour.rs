//! Scripts of whole runs.
//!
//! Every line goes through the reference while it is made, so that faulty
//! nodes can choose what to send by what honest ones hold.

use super::damage::{damage, ENTRIES, READINGS};
use super::{entry, number, Generated};
use crate::harbour::{Harbour, Run, Stage, State, LIMIT};
use crate::protocol::{quorum, Bearing, Coin, Instance, Lamp, Phase};
use crate::random::Random;

/// What a script of a run is made by.
#[derive(Clone, Copy, Debug)]
pub struct Shape {
    pub n: usize,
    pub m: usize,
    /// How many nodes are marked faulty.
    pub faulty: usize,
    pub lamps: bool,
    /// How many lines in a thousand are damaged.
    pub damage: usize,
    /// After so many lines there are no more sends and closes.
    pub budget: usize,
    /// How many closes are tried.
    pub closes: usize,
}

/// How faulty nodes treat one item.
#[derive(Clone, Copy, Debug)]
enum Manner {
    Silent,
    /// Anything, so many times in a hundred.
    Noise(usize),
    /// Keep honest nodes apart up to a round, by every means.
    Apart {
        until: usize,
    },
    /// Each sends one thing to all.
    Flat,
    /// One bit from a step on, to so many receivers in a hundred.
    Push {
        from: usize,
        bit: usize,
        share: usize,
    },
}

fn manner(random: &mut Random) -> Manner {
    match random.below(20) {
        0 | 1 => Manner::Silent,
        2..=4 => Manner::Noise(random.pick(&[5, 20, 50, 95])),
        5..=14 => Manner::Apart {
            until: random.pick(&[0, 1, 1, 2, 3, 5, 9, 17, 40, 99, 100]),
        },
        15 | 16 => Manner::Flat,
        _ => Manner::Push {
            from: random.pick(&[3, 3, 4, 5, 6, 7, 9, 30, 100]),
            bit: random.below(2),
            share: random.pick(&[10, 50, 80, 100]),
        },
    }
}

fn field<R: Generated>(cell: Option<R>) -> String {
    let mut out = Vec::new();
    match cell {
        None => out.push(b'-'),
        Some(reading) => reading.print(&mut out),
    }
    String::from_utf8(out).expect("a printed reading")
}

fn send_cell<R: Generated>(sender: usize, receiver: usize, item: usize, cell: Option<R>) -> String {
    format!("S {sender} {receiver} {item} {}", field(cell))
}

fn send_bit(sender: usize, receiver: usize, item: usize, bit: impl Into<usize>) -> String {
    format!("B {sender} {receiver} {item} {}", bit.into())
}

/// The nodes of an instance as faulty nodes see them.
struct Sight<'a, R> {
    instance: &'a Instance<R>,
    honest: Vec<usize>,
    faulty: Vec<usize>,
}

impl<'a, R: Generated> Sight<'a, R> {
    fn of(instance: &'a Instance<R>) -> Sight<'a, R> {
        let (faulty, honest) = (0..instance.n()).partition(|&node| instance.is_faulty(node));
        Sight {
            instance,
            honest,
            faulty,
        }
    }

    /// A number of honest nodes of one mind with which they can be kept apart in the next step.
    fn balance(&self, random: &mut Random) -> Option<usize> {
        let (h, t, q) = (
            self.honest.len(),
            self.faulty.len(),
            quorum(self.instance.n()),
        );
        let low = q.saturating_sub(t).max((h + 1).saturating_sub(q));
        let high = (q - 1).min(h);
        (low <= high).then(|| random.range(low, high))
    }

    /// The reading that most honest nodes hold, and how many do.
    fn favourite(&self, item: usize) -> Option<(R, usize)> {
        let readings = || {
            self.honest
                .iter()
                .filter_map(|&node| self.instance.value(node, item))
        };
        readings()
            .map(|reading| {
                (
                    reading,
                    readings().filter(|other| other.same(reading)).count(),
                )
            })
            .max_by_key(|&(_, count)| count)
    }

    fn apart_cells(&self, random: &mut Random, item: usize, lines: &mut Vec<String>) {
        let q = quorum(self.instance.n());
        let Some((reading, have)) = self.favourite(item) else {
            return;
        };
        let Some(balance) = self.balance(random) else {
            return;
        };
        if have >= q || have + self.faulty.len() < q {
            return;
        }
        let chosen = if self.instance.step() == 1 {
            balance
        } else {
            self.honest.len() - balance
        };
        let receivers = random.some(&self.honest, chosen);
        for &receiver in &self.honest {
            let senders = if receivers.contains(&receiver) {
                random.range(q - have, self.faulty.len())
            } else if random.chance(20) {
                q - have - 1
            } else {
                0
            };
            let senders = random.some(&self.faulty, senders);
            for &sender in &self.faulty {
                if senders.contains(&sender) {
                    let alias = reading.alias(random);
                    lines.push(send_cell(sender, receiver, item, Some(alias)));
                } else if random.chance(10) {
                    let other = random.chance(60).then(|| R::any(random));
                    if !other.is_some_and(|other| other.same(reading)) {
                        lines.push(send_cell(sender, receiver, item, other));
                    }
                }
            }
        }
    }

    fn apart_bits(
        &self,
        random: &mut Random,
        coin: &impl Coin,
        item: usize,
        lines: &mut Vec<String>,
    ) {
        let (h, q) = (self.honest.len(), quorum(self.instance.n()));
        let step = self.instance.step();
        let toss = coin.toss(0, step / 3, item);
        let Some(balance) = self.balance(random) else {
            return;
        };
        // The bit that some nodes are made to take by a quorum, and how many.
        let (forced, chosen) = match Phase::of(step) {
            Some(Phase::ToZero) => (true, h - balance),
            Some(Phase::ToOne) => (false, if toss { balance } else { h - balance }),
            Some(Phase::Toss) => (!toss, if toss { h - balance } else { balance }),
            _ => return,
        };
        let have = self
            .honest
            .iter()
            .filter(|&&node| self.instance.bit(node, item) == forced)
            .count();
        if have >= q || have + self.faulty.len() < q {
            return;
        }
        let receivers = random.some(&self.honest, chosen);
        for &receiver in &self.honest {
            let senders = if receivers.contains(&receiver) {
                random.range(q - have, self.faulty.len())
            } else if random.chance(15) {
                q - have - 1
            } else {
                0
            };
            for sender in random.some(&self.faulty, senders) {
                lines.push(send_bit(sender, receiver, item, forced));
            }
        }
    }

    /// Anything of the step's side.
    fn any_send(&self, random: &mut Random, sender: usize, receiver: usize, item: usize) -> String {
        if self.instance.step() >= 3 {
            return send_bit(sender, receiver, item, random.below(2));
        }
        let cell = match random.below(4) {
            0 => None,
            1 => Some(R::any(random)),
            _ => self
                .favourite(item)
                .map(|(reading, _)| reading.alias(random)),
        };
        send_cell(sender, receiver, item, cell)
    }

    fn item_sends(
        &self,
        random: &mut Random,
        coin: &impl Coin,
        manner: Manner,
        item: usize,
        lines: &mut Vec<String>,
    ) {
        let step = self.instance.step();
        match manner {
            Manner::Silent => {}
            Manner::Noise(percent) => {
                for &sender in &self.faulty {
                    for &receiver in &self.honest {
                        if random.chance(percent) {
                            lines.push(self.any_send(random, sender, receiver, item));
                        }
                    }
                }
            }
            Manner::Apart { until } if step / 3 <= until => {
                if step < 3 {
                    self.apart_cells(random, item, lines);
                } else {
                    self.apart_bits(random, coin, item, lines);
                }
            }
            Manner::Apart { .. } => {}
            Manner::Flat => {
                for &sender in &self.faulty {
                    let bit = random.below(2);
                    let cell = random.chance(70).then(|| R::any(random));
                    for &receiver in &self.honest {
                        lines.push(if step >= 3 {
                            send_bit(sender, receiver, item, bit)
                        } else {
                            send_cell(sender, receiver, item, cell)
                        });
                    }
                }
            }
            Manner::Push { from, bit, share } => {
                if step < 3 {
                    self.apart_cells(random, item, lines);
                } else if step >= from {
                    for &receiver in &self.honest {
                        if random.chance(share) {
                            for &sender in &self.faulty {
                                lines.push(send_bit(sender, receiver, item, bit));
                            }
                        }
                    }
                }
            }
        }
    }
}

/// What faulty nodes send in the step in force, and so many final sends in a hundred.
fn sends<R: Generated>(
    random: &mut Random,
    run: &Run<R>,
    manners: &[Manner],
    finals: usize,
) -> Vec<String> {
    let Stage::Instance(instance) = &run.stage else {
        return Vec::new();
    };
    let sight = Sight::of(instance);
    let mut lines = Vec::new();
    for item in 0..instance.m() {
        let manner = manners[item % manners.len()];
        sight.item_sends(random, &run.strip, manner, item, &mut lines);
    }
    let shuffled = random.chance(40);
    if instance.step() >= 3 || random.chance(5) {
        while !sight.faulty.is_empty() && !sight.honest.is_empty() && random.chance(finals) {
            let (sender, receiver) = (random.pick(&sight.faulty), random.pick(&sight.honest));
            lines.push(format!("W {sender} {receiver}"));
        }
    }
    if shuffled {
        random.shuffle(&mut lines);
    }
    lines
}

/// A line with any of the letters.
fn any_line<R: Generated>(random: &mut Random, n: usize, m: usize) -> String {
    const EDGES: [usize; 10] = [0, 1, 15, 16, 17, 255, 256, 65535, 65536, 99999];
    let letter = random.pick(b"NXITTOSSSSBBBBWWCCLLZ");
    let mut pick = |limit: usize| match random.below(12) {
        0 => limit,
        1 => random.pick(&EDGES),
        _ => random.below(limit),
    };
    let (one, two, item, bit) = (pick(n), pick(n), pick(m), pick(2));
    let reading = match random.below(10) {
        0 | 1 => field::<R>(None),
        2 | 3 => random.pick(&READINGS).into(),
        _ => field(Some(R::any(random))),
    };
    let fields = match letter {
        b'N' => vec![
            number(random, one),
            number(random, item),
            random.pick(&["B", "L"]).into(),
        ],
        b'X' => vec![number(random, one)],
        b'I' => vec![number(random, one), number(random, item), reading],
        b'T' => {
            let mut entries: Vec<String> = (0..random.range(1, 9)).map(|_| entry(random)).collect();
            if random.chance(30) {
                let index = random.below(entries.len());
                entries[index] = random.pick(&ENTRIES).into();
            }
            entries
        }
        b'S' => vec![
            number(random, one),
            number(random, two),
            number(random, item),
            reading,
        ],
        b'B' => [one, two, item, bit]
            .into_iter()
            .map(|value| number(random, value))
            .collect(),
        b'W' => vec![number(random, one), number(random, two)],
        b'L' => vec![number(random, one), number(random, item)],
        _ => vec![],
    };
    let mut line = String::from(char::from(letter));
    for field in fields {
        line.push(' ');
        line.push_str(&field);
    }
    line
}

struct Script {
    random: Random,
    harbour: Harbour,
    octets: Vec<u8>,
    lines: usize,
    shape: Shape,
}

impl Script {
    fn new(random: Random, shape: Shape) -> Script {
        Script {
            random,
            harbour: Harbour::new(),
            octets: Vec::new(),
            lines: 0,
            shape,
        }
    }

    fn raw(&mut self, line: &[u8]) {
        let begin = self.octets.len();
        self.octets.extend_from_slice(line);
        self.octets.push(b'\n');
        self.harbour.feed(&self.octets[begin..], &mut Vec::new());
        self.lines += 1;
    }

    /// Writes a line, now and then damaged.
    fn put(&mut self, line: impl AsRef<[u8]>) {
        let line = line.as_ref();
        if self.random.below(1000) < self.shape.damage {
            let mut damaged = line.to_vec();
            for _ in 0..self.random.pick(&[1, 1, 1, 1, 2, 3]) {
                damage(&mut self.random, &mut damaged, LIMIT);
            }
            self.raw(&damaged);
            if self.random.chance(30) {
                return;
            }
        }
        self.raw(line);
    }

    fn make_line(&mut self) -> String {
        let Shape { n, m, lamps, .. } = self.shape;
        if lamps {
            any_line::<Lamp>(&mut self.random, n, m)
        } else {
            any_line::<Bearing>(&mut self.random, n, m)
        }
    }

    fn any_line(&mut self) {
        let line = self.make_line();
        self.put(line);
    }

    /// Lines of any letter, but no Z.
    fn stray_lines(&mut self, percent: usize) {
        while self.random.chance(percent) {
            let line = self.make_line();
            if line != "Z" {
                self.put(line);
            }
        }
    }

    fn is_started(&self) -> bool {
        !matches!(self.harbour.state, State::Start)
    }

    fn is_setup(&self) -> bool {
        match &self.harbour.state {
            State::Bearings(run) => matches!(run.stage, Stage::Setup(_)),
            State::Lamps(run) => matches!(run.stage, Stage::Setup(_)),
            State::Start => false,
        }
    }

    fn is_open(&self) -> bool {
        match &self.harbour.state {
            State::Bearings(run) => matches!(run.stage, Stage::Instance(_)),
            State::Lamps(run) => matches!(run.stage, Stage::Instance(_)),
            State::Start => false,
        }
    }

    fn is_over(&self) -> bool {
        match &self.harbour.state {
            State::Bearings(Run {
                stage: Stage::Instance(instance),
                ..
            }) => instance.is_over(),
            State::Lamps(Run {
                stage: Stage::Instance(instance),
                ..
            }) => instance.is_over(),
            _ => true,
        }
    }

    fn set_strip(&mut self) {
        let count = self.random.range(1, 8);
        let entries: Vec<String> = (0..count).map(|_| entry(&mut self.random)).collect();
        self.put(format!("T {}", entries.join(" ")));
    }

    fn begin(&mut self) {
        let Shape { n, m, lamps, .. } = self.shape;
        if self.random.chance(20) {
            self.stray_lines(60);
        }
        let kind = if lamps { "L" } else { "B" };
        if self.random.chance(15) {
            for _ in 0..self.random.range(1, 3) {
                let size = self
                    .random
                    .pick(&[0, 17, 255, 256, 272, 65536, 65537, 99999]);
                let line = if self.random.chance(50) {
                    format!("N {size} {m} {kind}")
                } else {
                    format!("N {n} {size} {kind}")
                };
                self.put(line);
            }
        }
        while !self.is_started() {
            let line = format!(
                "N {} {} {kind}",
                number(&mut self.random, n),
                number(&mut self.random, m)
            );
            self.put(line);
        }
        if self.random.chance(8) {
            self.put(format!("N {n} {m} {kind}"));
        }
    }

    fn proposals<R: Generated>(&mut self, honest: &[usize], faulty: &[usize]) -> Vec<String> {
        let (n, m) = (self.shape.n, self.shape.m);
        let random = &mut self.random;
        let q = quorum(n);
        let mut lines = Vec::new();
        for item in 0..m {
            let (one, two, three) = (R::any(random), R::any(random), R::any(random));
            let manner = if item == 0 && self.shape.closes > 100 {
                3
            } else {
                random.below(10)
            };
            let backers = match manner {
                0..=2 => n,
                3..=7 => {
                    // So many that faulty nodes can tip the scales.
                    let low = q.saturating_sub(faulty.len()).min(q - 1);
                    random.range(low, q - 1)
                }
                8 => honest.len().saturating_sub(1),
                _ => 0,
            };
            for (index, &node) in random.some(honest, n).iter().enumerate() {
                let cell = if index < backers {
                    Some(one)
                } else {
                    random.pick(&[Some(two), Some(two), Some(three), None])
                };
                if cell.is_none() && random.chance(70) {
                    continue;
                }
                if random.chance(3) {
                    lines.push(format!("I {node} {item} {}", field(Some(three))));
                }
                let alias = cell.map(|reading| reading.alias(random));
                lines.push(format!("I {node} {item} {}", field(alias)));
            }
            if !faulty.is_empty() && random.chance(10) {
                lines.push(format!(
                    "I {} {item} {}",
                    random.pick(faulty),
                    field(Some(two))
                ));
            }
        }
        if random.chance(50) {
            random.shuffle(&mut lines);
        }
        lines
    }

    fn set_up(&mut self) {
        let Shape {
            n, faulty, lamps, ..
        } = self.shape;
        let nodes: Vec<usize> = (0..n).collect();
        let faulty = self.random.some(&nodes, faulty);
        let honest: Vec<usize> = nodes
            .into_iter()
            .filter(|node| !faulty.contains(node))
            .collect();
        let mut marks: Vec<String> = faulty.iter().map(|node| format!("X {node}")).collect();
        if !marks.is_empty() && self.random.chance(15) {
            marks.push(marks[0].clone());
        }
        let proposals = if lamps {
            self.proposals::<Lamp>(&honest, &faulty)
        } else {
            self.proposals::<Bearing>(&honest, &faulty)
        };
        let marks_first = self.random.chance(70);
        let (first, second) = if marks_first {
            (marks, proposals)
        } else {
            (proposals, marks)
        };
        let strip_at = self.random.below(3);
        let strip = self.random.chance(90);
        for (index, lines) in [first, second, Vec::new()].into_iter().enumerate() {
            if strip && index == strip_at {
                self.set_strip();
            }
            for line in lines {
                self.put(line);
                if self.random.below(400) == 0 {
                    self.stray_lines(50);
                }
            }
        }
        if self.random.chance(10) {
            self.set_strip();
        }
        if self.random.chance(30) {
            self.stray_lines(60);
        }
        while self.is_setup() {
            self.put("O");
        }
        if self.random.chance(8) {
            self.any_line();
        }
    }

    fn looks(&mut self, count: usize) {
        for _ in 0..count {
            let node = self.random.below(self.shape.n);
            let item = self.random.below(self.shape.m);
            self.put(format!("L {node} {item}"));
        }
    }

    fn look_everywhere(&mut self) {
        for node in 0..self.shape.n {
            for item in 0..self.shape.m {
                self.put(format!("L {node} {item}"));
            }
        }
    }

    fn steps(&mut self) {
        let Shape {
            m, budget, closes, ..
        } = self.shape;
        let mut manners: Vec<Manner> = (0..m).map(|_| manner(&mut self.random)).collect();
        let mut finals = self.random.pick(&[0, 0, 3, 30]);
        if closes > 100 {
            // Long runs: keep one item undecided to the end.
            manners[0] = Manner::Apart { until: 100 };
            finals = 0;
        }
        let repeats = self.random.pick(&[0, 0, 2, 20]);
        let strays = if closes > 100 {
            1
        } else {
            self.random.pick(&[0, 2, 10, 40])
        };
        let looking = self.random.pick(&[5, 30, 100]);
        for _ in 0..closes {
            if self.lines > budget || !self.is_open() {
                break;
            }
            let mut lines = match &self.harbour.state {
                State::Bearings(run) => sends(&mut self.random, run, &manners, finals),
                State::Lamps(run) => sends(&mut self.random, run, &manners, finals),
                State::Start => Vec::new(),
            };
            lines.truncate(budget);
            for line in lines {
                self.put(&line);
                if self.random.chance(repeats) {
                    let mut again = line.into_bytes();
                    if let Some(last @ (b'0' | b'1')) = again.last_mut() {
                        *last ^= self.random.below(2) as u8;
                    }
                    self.put(again);
                }
            }
            if self.random.chance(strays) {
                self.stray_lines(50);
            }
            self.put("C");
            if self.random.chance(looking) {
                let count = self.random.range(1, 3);
                self.looks(count);
            }
            if self.is_over() && self.random.chance(60) {
                break;
            }
        }
    }

    fn end(&mut self) {
        for _ in 0..self.random.below(4) {
            let line = match self.random.below(6) {
                0 => "S 0 0 0 -".into(),
                1 => format!(
                    "B {} {} 0 1",
                    self.random.below(self.shape.n),
                    self.random.below(self.shape.n)
                ),
                2 => format!(
                    "W {} {}",
                    self.random.below(self.shape.n),
                    self.random.below(self.shape.n)
                ),
                _ => "C".into(),
            };
            self.put(line);
        }
        if self.random.chance(40) {
            self.look_everywhere();
        } else {
            self.looks(3);
        }
        if self.random.chance(90) {
            self.put("Z");
        }
        if self.random.chance(50) {
            self.looks(4);
        }
        if self.random.chance(40) {
            for _ in 0..self.random.range(1, 12) {
                self.any_line();
            }
        }
    }

    fn octets(mut self) -> Vec<u8> {
        if self.random.chance(25) {
            self.octets.pop();
        }
        self.octets
    }
}

/// A script of one run of this shape.
pub fn run_script(seed: u64, shape: Shape) -> Vec<u8> {
    run(Random::new(seed), shape)
}

fn run(random: Random, shape: Shape) -> Vec<u8> {
    let mut script = Script::new(random, shape);
    script.begin();
    script.set_up();
    script.steps();
    script.end();
    script.octets()
}

fn shape(random: &mut Random) -> Shape {
    let (n, m) = match random.below(10) {
        0..=3 => (random.range(1, 16), random.range(1, 16)),
        4..=6 => (
            random.pick(&[3, 4, 4, 5, 6, 7, 7, 10, 13, 16]),
            random.range(1, 3),
        ),
        7 => (random.range(3, 6), random.pick(&[8, 9, 15, 16, 16])),
        8 => (random.pick(&[1, 2, 15, 16]), random.pick(&[1, 2, 15, 16])),
        _ => (4, 1),
    };
    let below_third = (n - 1) / 3;
    let faulty = match random.below(20) {
        0 => 0,
        1..=10 => below_third,
        11..=13 => random.range(0, below_third),
        14..=16 => below_third + 1,
        17 | 18 => random.range(0, n - 1),
        _ => n,
    };
    let small = n >= 4 && n * m <= 24;
    let closes = match random.below(12) {
        0 => random.range(0, 5),
        1..=5 => random.range(4, 16),
        6..=8 => random.range(8, 60),
        _ if small || random.chance(10) => random.range(300, 306),
        _ => 99,
    };
    let budget = match random.below(10) {
        0..=3 => 300,
        4..=7 => 900,
        8 => 2500,
        _ => 5000,
    };
    let long = closes > 100;
    let budget = if long { 4000 } else { budget };
    let damage = if long {
        random.pick(&[0, 0, 1, 3])
    } else {
        random.pick(&[0, 3, 3, 15, 15, 60, 200])
    };
    Shape {
        n,
        m,
        faulty: faulty.min(n),
        lamps: random.chance(50),
        damage,
        budget,
        closes,
    }
}

/// Lines of any letter and little sense.
fn soup(mut random: Random) -> Vec<u8> {
    let shape = Shape {
        n: random.range(1, 5),
        m: random.range(1, 3),
        faulty: 0,
        lamps: random.chance(50),
        damage: random.pick(&[0, 30, 300]),
        budget: 0,
        closes: 0,
    };
    let mut script = Script::new(random, shape);
    if script.random.chance(80) {
        script.begin();
    }
    for _ in 0..script.random.range(1, 300) {
        script.any_line();
    }
    script.octets()
}

/// Any octets, most of them such as are found in scripts.
fn octets(mut random: Random) -> Vec<u8> {
    let length = random.pick(&[0, 1, 2, 60, 61, 500, 5000]);
    let common = random.pick(&[0, 90, 100]);
    (0..length)
        .map(|_| {
            if random.chance(common) {
                random.pick(b"NXITOSBWCLZ0123456789ABCDEF-  \n\n\n\n")
            } else {
                random.draw() as u8
            }
        })
        .collect()
}

/// One hostile script.
pub fn harbour(seed: u64) -> Vec<u8> {
    let mut random = Random::new(seed);
    match random.below(50) {
        0 => octets(random),
        1..=3 => soup(random),
        _ => {
            let shape = shape(&mut random);
            run(random, shape)
        }
    }
}
