//! The loads: a book of 64 bonds, and lists of events over it, one that looks like a close and one of random events.

use second::{book::Book, events::answer, isin, table::Table};

/// Numbers that look random, the same in every run.
pub struct Numbers(pub u64);

impl Numbers {
    pub fn below(&mut self, bound: usize) -> usize {
        self.0 ^= self.0 << 13;
        self.0 ^= self.0 >> 7;
        self.0 ^= self.0 << 17;
        (self.0 >> 11) as usize % bound
    }
}

/// A book of 64 bonds, every fourth a zero.
pub fn book(machines: u8) -> Vec<u8> {
    let mut bytes = vec![machines, 0, 64, 0];
    for i in 0..64 {
        let first = format!("ZZ{:09}", 7 * i + 1).into_bytes();
        bytes.extend(&first);
        bytes.push(isin::check_character(&first));
    }
    for i in 0..64u32 {
        let zero = i % 4 == 0;
        bytes.extend([if zero { 1 } else { 2 }, (1 + 37 * i % 240) as u8, 0]);
        bytes.extend(if zero { 0.0f64 } else { (i % 9) as f64 }.to_bits().to_le_bytes());
        bytes.extend((0.001 * i as f64).to_bits().to_le_bytes());
    }
    bytes
}

/// The table opened from it.
pub fn fresh(book: &[u8]) -> Table {
    Table::open(&Book::read(book).expect("an accepted book"))
}

/// An event that may be accepted: mostly deliveries and steals, as in a close where machines look for work.
fn candidate(numbers: &mut Numbers, table: &Table, machines: usize) -> [u8; 3] {
    let kind = numbers.below(100);
    let (a, b) = (numbers.below(machines) as u8, numbers.below(machines) as u8);
    let job = numbers.below(64) as u8;
    match kind {
        0..=1 => [1, job, 0],
        2..=24 => [2, a, b],
        25..=87 if !table.in_flight().is_empty() => {
            let message = &table.in_flight()[numbers.below(table.in_flight().len())];
            [3, message.from, message.to]
        }
        88..=93 => [4, a, job],
        94..=98 => [5, a, 0],
        _ => [7, a, b],
    }
}

/// So many events over that book, nearly all of them accepted, with a death now and then.
pub fn events(machines: u8, count: usize) -> Vec<u8> {
    let mut numbers = Numbers(42);
    let mut table = fresh(&book(machines));
    let (mut bytes, mut deaths) = (Vec::new(), 0);
    while bytes.len() < 3 * count {
        let mut event = candidate(&mut numbers, &table, machines as usize);
        if numbers.below(4000) == 0 && deaths < machines / 3 {
            event = [6, 1 + numbers.below(machines as usize - 1) as u8, 0];
        }
        let mut after = table.clone();
        let accepted = answer(&mut after, &event) == 0;
        if accepted {
            deaths += (event[0] == 6) as u8;
            table = after;
        }
        if accepted || numbers.below(50) == 0 {
            bytes.extend(event);
        }
    }
    bytes
}

/// An event of any code whose numbers are in range, so that the table alone decides. A death that would be one too many is the root's.
fn any(numbers: &mut Numbers, machines: usize, deaths_left: bool) -> [u8; 3] {
    let code = 1 + numbers.below(7) as u8;
    let (a, b) = (numbers.below(machines) as u8, numbers.below(machines) as u8);
    let job = numbers.below(64) as u8;
    match code {
        1 => [1, job, 0],
        4 => [4, a, job],
        5 => [5, a, 0],
        6 => [6, if deaths_left { a } else { 0 }, 0],
        _ => [code, a, b],
    }
}

/// So many events at random, with one in 50 that may be accepted: nearly all of them are refused. A third of the machines die.
fn refused(machines: u8, count: usize) -> Vec<u8> {
    let mut numbers = Numbers(42);
    let mut table = fresh(&book(machines));
    let (mut bytes, mut deaths) = (Vec::new(), 0);
    for _ in 0..count {
        let event = match numbers.below(50) {
            0 => candidate(&mut numbers, &table, machines as usize),
            _ => any(&mut numbers, machines as usize, deaths < machines / 3),
        };
        deaths += (answer(&mut table, &event) == 0 && event[0] == 6) as u8;
        bytes.extend(event);
    }
    bytes
}

/// A book and a list of events over it.
pub struct Load {
    pub name: &'static str,
    pub book: Vec<u8>,
    pub events: Vec<u8>,
}

impl Load {
    /// The book alone.
    pub fn none(machines: u8) -> Load {
        Load { name: "none", book: book(machines), events: vec![] }
    }

    pub fn accepted(machines: u8, count: usize) -> Load {
        Load { name: "accepted", book: book(machines), events: events(machines, count) }
    }

    pub fn refused(machines: u8, count: usize) -> Load {
        Load { name: "refused", book: book(machines), events: refused(machines, count) }
    }

    /// How many events there are.
    pub fn count(&self) -> usize {
        self.events.len() / 3
    }

    /// How many of a hundred are refused.
    pub fn refused_share(&self) -> f64 {
        let mut table = fresh(&self.book);
        let refused = self.events.chunks(3).filter(|event| answer(&mut table, event) != 0).count();
        100.0 * refused as f64 / self.count() as f64
    }
}
