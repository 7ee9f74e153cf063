//! A whole run: setup, instance, outcome.
//!
//! A run owns its boards, so no call is refused for a short one.

use super::{close_bits, close_echo, close_poll, Coin, Phase, Reading, Refusal, LAST_STEP, MOST};

/// A node and an item with their numbers checked.
fn check(n: usize, m: usize, nodes: &[usize], item: Option<usize>) -> Result<(), Refusal> {
    if nodes.iter().any(|&node| node >= n) {
        return Err(Refusal::NoNode);
    }
    if item.is_some_and(|item| item >= m) {
        return Err(Refusal::NoItem);
    }
    Ok(())
}

#[derive(Clone, Debug)]
pub struct Setup<R> {
    n: usize,
    m: usize,
    faulty: Vec<bool>,
    values: Vec<Option<R>>,
}

impl<R: Reading> Setup<R> {
    pub fn new(n: usize, m: usize) -> Result<Setup<R>, Refusal> {
        if n == 0 || n > MOST || m == 0 || m > MOST {
            return Err(Refusal::BadSize);
        }
        Ok(Setup {
            n,
            m,
            faulty: vec![false; n],
            values: vec![None; n * m],
        })
    }

    pub fn mark_faulty(&mut self, node: usize) -> Result<(), Refusal> {
        check(self.n, self.m, &[node], None)?;
        self.faulty[node] = true;
        Ok(())
    }

    pub fn propose(&mut self, node: usize, item: usize, cell: Option<R>) -> Result<(), Refusal> {
        check(self.n, self.m, &[node], Some(item))?;
        if self.faulty[node] {
            return Err(Refusal::FaultyNode);
        }
        self.values[node * self.m + item] = cell;
        Ok(())
    }

    pub fn open(self) -> Instance<R> {
        let Setup {
            n,
            m,
            faulty,
            values,
        } = self;
        let honest = faulty.iter().filter(|&&faulty| !faulty).count();
        Instance {
            table: Table {
                n,
                m,
                faulty,
                values,
                bits: vec![false; n * m],
                decided: vec![false; n * m],
            },
            step: 1,
            undecided: honest * m,
            sent: vec![Sent::Nothing; n * n * m],
            finals: vec![false; n * n],
        }
    }
}

#[derive(Clone, Copy, Debug, PartialEq, Eq)]
pub enum Decision<R> {
    Undecided,
    Decided(Option<R>),
}

/// What every node holds.
#[derive(Clone, Debug)]
struct Table<R> {
    n: usize,
    m: usize,
    faulty: Vec<bool>,
    values: Vec<Option<R>>,
    bits: Vec<bool>,
    decided: Vec<bool>,
}

impl<R: Reading> Table<R> {
    fn decision(&self, node: usize, item: usize) -> Result<Decision<R>, Refusal> {
        check(self.n, self.m, &[node], Some(item))?;
        if self.faulty[node] {
            return Err(Refusal::FaultyNode);
        }
        let place = node * self.m + item;
        Ok(match (self.decided[place], self.bits[place]) {
            (false, _) => Decision::Undecided,
            (true, false) => Decision::Decided(self.values[place]),
            (true, true) => Decision::Decided(None),
        })
    }
}

/// What a faulty node sent to one receiver for one item.
#[derive(Clone, Copy, Debug, PartialEq, Eq)]
enum Sent<R> {
    Nothing,
    Cell(Option<R>),
    Bit(bool),
}

#[derive(Clone, Debug)]
pub struct Instance<R> {
    table: Table<R>,
    step: usize,
    /// How many items of honest nodes are undecided.
    undecided: usize,
    /// At (sender × n + receiver) × m + item.
    sent: Vec<Sent<R>>,
    /// At sender × n + receiver.
    finals: Vec<bool>,
}

impl<R: Reading> Instance<R> {
    pub fn n(&self) -> usize {
        self.table.n
    }

    pub fn m(&self) -> usize {
        self.table.m
    }

    pub fn step(&self) -> usize {
        self.step
    }

    pub fn is_faulty(&self, node: usize) -> bool {
        self.table.faulty[node]
    }

    pub fn is_final(&self, sender: usize, receiver: usize) -> bool {
        self.finals[sender * self.table.n + receiver]
    }

    pub fn value(&self, node: usize, item: usize) -> Option<R> {
        self.table.values[node * self.table.m + item]
    }

    pub fn bit(&self, node: usize, item: usize) -> bool {
        self.table.bits[node * self.table.m + item]
    }

    pub fn is_decided(&self, node: usize, item: usize) -> bool {
        self.table.decided[node * self.table.m + item]
    }

    /// Nothing can be sent or closed any more.
    pub fn is_over(&self) -> bool {
        self.undecided == 0 || self.step > LAST_STEP
    }

    fn sent_place(&self, sender: usize, receiver: usize, item: usize) -> usize {
        (sender * self.table.n + receiver) * self.table.m + item
    }

    /// The checks 3 to 6 of a send.
    fn check_send(
        &self,
        sender: usize,
        receiver: usize,
        item: Option<usize>,
    ) -> Result<(), Refusal> {
        check(self.table.n, self.table.m, &[sender, receiver], item)?;
        if !self.table.faulty[sender] {
            return Err(Refusal::HonestSender);
        }
        if self.table.faulty[receiver] {
            return Err(Refusal::FaultyNode);
        }
        Ok(())
    }

    fn check_over(&self) -> Result<(), Refusal> {
        if self.is_over() {
            return Err(Refusal::Over);
        }
        Ok(())
    }

    pub fn send_value(
        &mut self,
        sender: usize,
        receiver: usize,
        item: usize,
        cell: Option<R>,
    ) -> Result<(), Refusal> {
        self.check_send(sender, receiver, Some(item))?;
        if self.step >= 3 {
            return Err(Refusal::WrongPhase);
        }
        let place = self.sent_place(sender, receiver, item);
        if matches!(self.sent[place], Sent::Cell(_)) {
            return Err(Refusal::Repeated);
        }
        self.check_over()?;
        self.sent[place] = Sent::Cell(cell);
        Ok(())
    }

    pub fn send_bit(
        &mut self,
        sender: usize,
        receiver: usize,
        item: usize,
        bit: usize,
    ) -> Result<(), Refusal> {
        self.check_send(sender, receiver, Some(item))?;
        if self.step < 3 || bit > 1 {
            return Err(Refusal::WrongPhase);
        }
        let place = self.sent_place(sender, receiver, item);
        if matches!(self.sent[place], Sent::Bit(_)) || self.is_final(sender, receiver) {
            return Err(Refusal::Repeated);
        }
        self.check_over()?;
        self.sent[place] = Sent::Bit(bit == 1);
        Ok(())
    }

    pub fn send_final(&mut self, sender: usize, receiver: usize) -> Result<(), Refusal> {
        self.check_send(sender, receiver, None)?;
        if self.step < 3 {
            return Err(Refusal::WrongPhase);
        }
        if self.is_final(sender, receiver) {
            return Err(Refusal::Repeated);
        }
        self.check_over()?;
        self.finals[sender * self.table.n + receiver] = true;
        Ok(())
    }

    /// The cell that a node hears from a node in steps 1 and 2.
    pub fn heard_cell(&self, sender: usize, receiver: usize, item: usize) -> Option<R> {
        if !self.table.faulty[sender] {
            return self.value(sender, item);
        }
        match self.sent[self.sent_place(sender, receiver, item)] {
            Sent::Cell(cell) => cell,
            _ => None,
        }
    }

    /// The bit that a node hears from a node from step 3 on.
    pub fn heard_bit(&self, sender: usize, receiver: usize, item: usize) -> Option<bool> {
        if !self.table.faulty[sender] {
            return Some(self.bit(sender, item));
        }
        match self.sent[self.sent_place(sender, receiver, item)] {
            Sent::Bit(bit) => Some(bit),
            _ => None,
        }
    }

    pub fn close(&mut self, coin: &impl Coin) -> Result<(), Refusal> {
        self.check_over()?;
        match Phase::of(self.step) {
            Some(Phase::Poll | Phase::Echo) => self.close_cells(),
            Some(phase) => self.close_votes(phase, coin),
            None => return Err(Refusal::Over),
        }
        self.clear_sent();
        self.step += 1;
        Ok(())
    }

    fn close_cells(&mut self) {
        let (n, m) = (self.table.n, self.table.m);
        let mut values = self.table.values.clone();
        let mut bits = self.table.bits.clone();
        let mut heard = Vec::with_capacity(n);
        for node in (0..n).filter(|&node| !self.table.faulty[node]) {
            for item in 0..m {
                heard.clear();
                heard.extend((0..n).map(|sender| self.heard_cell(sender, node, item)));
                let place = node * m + item;
                if self.step == 1 {
                    values[place] = close_poll(&heard);
                } else {
                    let (value, grade) = close_echo(&heard);
                    values[place] = value;
                    bits[place] = grade != 2;
                }
            }
        }
        self.table.values = values;
        self.table.bits = bits;
    }

    fn close_votes(&mut self, phase: Phase, coin: &impl Coin) {
        let (n, m) = (self.table.n, self.table.m);
        let mut bits = self.table.bits.clone();
        for node in (0..n).filter(|&node| !self.table.faulty[node]) {
            for item in 0..m {
                let place = node * m + item;
                if self.table.decided[place] {
                    continue;
                }
                let (mut zeros, mut ones) = (0, 0);
                for sender in 0..n {
                    match self.heard_bit(sender, node, item) {
                        Some(false) => zeros += 1,
                        Some(true) => ones += 1,
                        None => {}
                    }
                }
                let toss = || coin.toss(node, self.step / 3, item);
                let (bit, decided) = close_bits(phase, n, zeros, ones, toss);
                bits[place] = bit;
                if decided {
                    self.table.decided[place] = true;
                    self.undecided -= 1;
                }
            }
        }
        self.table.bits = bits;
    }

    /// What was sent is forgotten, except where a pair is final.
    fn clear_sent(&mut self) {
        let n = self.table.n;
        for (pair, sent) in self.sent.chunks_exact_mut(self.table.m).enumerate() {
            if self.table.faulty[pair / n] && !self.finals[pair] {
                sent.fill(Sent::Nothing);
            }
        }
    }

    pub fn decision(&self, node: usize, item: usize) -> Result<Decision<R>, Refusal> {
        self.table.decision(node, item)
    }

    /// Writes node × 16 + item of everything undecided; gives their number.
    pub fn undecided(&self, list: &mut [usize]) -> Result<usize, Refusal> {
        if list.len() < self.undecided {
            return Err(Refusal::Short);
        }
        let mut count = 0;
        for node in (0..self.table.n).filter(|&node| !self.table.faulty[node]) {
            for item in 0..self.table.m {
                if !self.is_decided(node, item) {
                    list[count] = node * 16 + item;
                    count += 1;
                }
            }
        }
        Ok(count)
    }

    pub fn end(self) -> Outcome<R> {
        Outcome { table: self.table }
    }
}

#[derive(Clone, Debug)]
pub struct Outcome<R> {
    table: Table<R>,
}

impl<R: Reading> Outcome<R> {
    pub fn n(&self) -> usize {
        self.table.n
    }

    pub fn m(&self) -> usize {
        self.table.m
    }

    pub fn is_faulty(&self, node: usize) -> bool {
        self.table.faulty[node]
    }

    pub fn decision(&self, node: usize, item: usize) -> Result<Decision<R>, Refusal> {
        self.table.decision(node, item)
    }
}
