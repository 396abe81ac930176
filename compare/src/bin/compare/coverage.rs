//! What the input reached: printed at the end, and held to what it must reach.

use crate::inputs;
use crate::joins::Joins;
use second::check::Fault;
use second::table::*;
use std::collections::BTreeMap;

pub const KINDS: [&str; 10] =
    ["", "FISH", "REQ", "AUTH", "DENIED", "OBSOLETE", "SCHEDULE", "ACK", "NOWORK", "RESULT"];
pub const EVENTS: [&str; 9] = ["none", "Admit", "Steal", "Deliver", "Start", "Done", "Die", "Notice", "Join"];

/// The numbers that each event can get on a table that passes check 9: document 01's last table, and
/// document 02, 2.5, for Steal, and 2.6 for Join.
const EXPECTED: [&[u8]; 9] = [
    &[10],
    &[0, 10, 11, 13],
    &[0, 10, 11, 12, 14, 16, 24, 25],
    &[0, 10, 11, 15],
    &[0, 10, 11, 12, 17, 18],
    &[0, 10, 11, 12, 16, 19],
    &[0, 10, 11, 12, 20],
    &[0, 10, 11, 12, 21, 22],
    &[0, 10, 26, 27],
];

/// The conditions of Steal's refusals, in their order, where "full" is 128 in flight whether or not the victim
/// lives; and the pairs to be met: the first two that hold for one steal.
pub const STEAL: [&str; 5] = ["dead", "same", "waits", "told", "full"];
const STEAL_PAIRS: [(&str, &str); 7] = [
    ("dead", "same"),
    ("dead", "told"),
    ("same", "waits"),
    ("same", "full"),
    ("waits", "told"),
    ("waits", "full"),
    ("told", "full"),
];

/// What is to be met with 128 messages in flight: of a steal that is otherwise accepted the victim, which lives
/// or is dead (document 02, 2.10); a notice that ends a wait; a Done that is otherwise accepted.
pub const FULL: [&str; 4] =
    ["steal from the living", "steal from the dead", "notice that ends a wait", "done"];

/// What can come of a delivered message: the kind of the message that is sent, or what else changes.
const OUTCOMES: [(u8, &[&str]); 9] = [
    (FISH, &["NOWORK", "REQ", "nothing"]),
    (REQ, &["AUTH", "DENIED", "OBSOLETE"]),
    (AUTH, &["SCHEDULE", "machine changed", "nothing"]),
    (DENIED, &["NOWORK", "machine changed", "nothing"]),
    (OBSOLETE, &["NOWORK", "machine changed", "nothing"]),
    (SCHEDULE, &["ACK"]),
    (ACK, &["job changed", "nothing"]),
    (NOWORK, &["machine changed", "nothing"]),
    (RESULT, &["job changed", "nothing"]),
];

/// What is to be met of yields below 0.
const BELOW_ZERO: [&str; 8] = [
    "term accepted",
    "term accepted at -0.5",
    "term refused next below -0.5",
    "price",
    "book accepted",
    "job priced in a run",
    "table passed",
    "table refused next below -0.5",
];

/// What is to be met of payments per year: where, and the numbers or bytes there. None is any that is
/// neither 0 nor allowed.
const PAYMENTS: [(&str, &[Option<u8>]); 9] = [
    ("term accepted", &[Some(0), Some(1), Some(2), Some(4), Some(12)]),
    ("term refused for it alone", &[None]),
    ("price", &[Some(0), Some(1), Some(2), Some(4), Some(12), None]),
    ("entry of a book accepted", &[Some(0), Some(1), Some(2), Some(4), Some(12)]),
    ("book refused for it alone", &[None]),
    ("job priced in a run", &[Some(1), Some(2), Some(4), Some(12)]),
    ("entry of a table passed", &[Some(1), Some(2), Some(4), Some(12)]),
    ("table refused for it alone", &[Some(0), None]),
    ("unused entry refused for it", &[Some(1), Some(2), Some(4), Some(12)]),
];

/// Lengths that no snapshot has: no byte, one, those of snapshots before requests 2.3 and 2.4 (the latter is one
/// byte short), and one byte too many.
pub const OTHER_LENGTHS: [usize; 5] = [0, 1, BYTES - 1 - ENTRIES, BYTES - 1, BYTES + 1];

/// What is to be met of the number of open jobs (document 02, 2.4): accepted events that change it, or that deal
/// with jobs and leave it; by how much a kept number differs; where else it is asked for; how a page ends.
const OPEN_JOBS: [(&str, &[&str]); 5] = [
    ("event of a run", &["Admit", "RESULT, open", "RESULT, priced", "Notice, recovered"]),
    (
        "event on a damaged table",
        &["Admit", "RESULT, open", "RESULT, priced", "RESULT, not admitted", "Notice, recovered"],
    ),
    ("refused 9 for it alone", &["one too high", "one too low", "255", "other"]),
    ("answered though refused 9", &["faulty table", "no table"]),
    ("last line of a page", &["open 0", "open, one digit", "open, two digits", "open 64", "book refused"]),
];

/// What is to be met of adding an entry to a faulty book: its numbers.
pub const REFUSED_BOOKS: [&str; 7] = [
    "book refused 1",
    "book refused 2",
    "book refused 3",
    "book refused 4",
    "book refused 5",
    "book refused 6",
    "book refused 7",
];

/// What else is to be met of adding an entry.
const WRITER: [&str; 21] = [
    "count past the end",
    "count near the largest",
    "faulty book, faulty entry, no room",
    "65th entry",
    "65th entry, faulty, no room",
    "form of the identifier",
    "identifier of another length",
    "check digit",
    "identifier of the first entry",
    "identifier of the last entry",
    "terms",
    "terms of another length",
    "faulty entry and no room",
    "no room",
    "30 bytes of room",
    "accepted",
    "accepted in 31 bytes of room",
    "accepted as the 64th entry",
    "accepted with a third byte 0",
    "book built",
    "book of 64 entries built",
];

fn writer_names() -> impl Iterator<Item = &'static str> {
    REFUSED_BOOKS.into_iter().chain(WRITER)
}

/// The largest number of an event.
const LARGEST: usize = 27;

/// Answers by event code (0: no code of an event) and number.
#[derive(Default)]
pub struct Answers([[u64; LARGEST + 1]; EVENTS.len()]);

impl Answers {
    pub fn count(&mut self, event: &[u8], number: u8) {
        let code = event.first().filter(|code| (1..=8).contains(*code)).map_or(0, |code| *code);
        self.0[usize::from(code)][usize::from(number).min(LARGEST)] += 1;
    }

    fn print(&self, title: &str) {
        println!("{title}");
        for (name, row) in EVENTS.iter().zip(&self.0) {
            let seen = row.iter().enumerate().filter(|(_, count)| **count > 0);
            let text: Vec<String> = seen.map(|(number, count)| format!("{number}: {count}")).collect();
            println!("  {name:8} {}", text.join("  "));
        }
    }

    fn missing(&self) -> impl Iterator<Item = String> + '_ {
        (0..EVENTS.len()).flat_map(move |code| {
            let never = EXPECTED[code].iter().filter(move |&&number| self.0[code][usize::from(number)] == 0);
            never.map(move |number| format!("{} {number}", EVENTS[code]))
        })
    }
}

#[derive(Default)]
pub struct Coverage {
    /// Cases of simple inputs by their number.
    pub identifiers: [u64; 24],
    pub characters: [u64; 24],
    pub terms: [u64; 24],
    pub books: [u64; 24],
    pub opened: [u64; 24],
    pub added: [u64; 24],
    /// By `writer_names`.
    pub writer: BTreeMap<&'static str, u64>,
    pub prices: u64,
    /// By the names of `BELOW_ZERO`.
    pub below_zero: BTreeMap<&'static str, u64>,
    /// By the names of `PAYMENTS` and the number.
    pub payments: BTreeMap<(&'static str, Option<u8>), u64>,
    /// By the places of `OPEN_JOBS` and what was met there.
    pub open_jobs: BTreeMap<(&'static str, &'static str), u64>,
    /// The largest answer in a run.
    pub most_open: u8,
    pub pages: u64,
    pub longest_page: usize,
    pub runs: u64,
    /// Events of runs, and those given to damaged tables.
    pub answers: Answers,
    pub damaged_answers: Answers,
    /// Steals with more than one condition of `STEAL`, by the first two.
    pub steals: BTreeMap<(&'static str, &'static str), u64>,
    /// By the names of `FULL`.
    pub full: BTreeMap<&'static str, u64>,
    pub joins: Joins,
    /// Messages handled, by kind and what came of it.
    pub handled: BTreeMap<(u8, &'static str), u64>,
    pub most_in_flight: u8,
    pub largest_replica: u8,
    pub damaged_passed: u64,
    /// Tables that fail check 9. None: bytes that are no table.
    pub faults: BTreeMap<Option<Fault>, u64>,
    /// Those whose kept number of open jobs differs too; they are not among the others.
    pub faults_and_number: u64,
    /// Bytes that are no table by their length, which is one of `OTHER_LENGTHS`.
    pub lengths: BTreeMap<usize, u64>,
}

/// What of a list by places was never counted.
pub fn never<P: Copy + Ord, K: Copy + Ord>(all: &[(P, &[K])], counts: &BTreeMap<(P, K), u64>) -> Vec<(P, K)> {
    let pairs = all.iter().flat_map(|(place, names)| names.iter().map(move |name| (*place, *name)));
    pairs.filter(|pair| !counts.contains_key(pair)).collect()
}

/// Each place of such a list with its counts.
pub fn print_places<K: Copy + Ord>(
    all: &[(&'static str, &[K])],
    counts: &BTreeMap<(&'static str, K), u64>,
    name: fn(K) -> String,
) {
    for (place, keys) in all {
        let count = |key: &K| format!("{}: {}", name(*key), counts.get(&(*place, *key)).unwrap_or(&0));
        println!("  {place:29} {}", keys.iter().map(count).collect::<Vec<_>>().join("  "));
    }
}

impl Coverage {
    /// A delivered message, between the table before and the table after.
    pub fn delivered(&mut self, message: &Message, before: &Table, after: &Table) {
        let sent = after.in_flight == before.in_flight;
        let job = usize::from(message.job);
        let outcome = if sent && after.in_flight > 0 {
            KINDS[usize::from(after.messages[usize::from(after.in_flight) - 1].kind)]
        } else if before.jobs[job] != after.jobs[job] {
            "job changed"
        } else if before.machine != after.machine {
            "machine changed"
        } else {
            "nothing"
        };
        *self.handled.entry((message.kind, outcome)).or_default() += 1;
    }

    /// A steal for which these conditions of `STEAL` hold.
    pub fn stolen(&mut self, held: [bool; 5]) {
        let mut names = STEAL.into_iter().zip(held).filter(|(_, held)| *held).map(|(name, _)| name);
        if let (Some(first), Some(second)) = (names.next(), names.next()) {
            *self.steals.entry((first, second)).or_default() += 1;
        }
    }

    /// Something of `FULL` was met.
    pub fn count_full(&mut self, name: &'static str) {
        *self.full.entry(name).or_default() += 1;
    }

    /// Something of `BELOW_ZERO` was met so many times.
    pub fn count_below_zero(&mut self, name: &'static str, count: usize) {
        if count > 0 {
            *self.below_zero.entry(name).or_default() += count as u64;
        }
    }

    /// Payments were met at a place of `PAYMENTS`.
    pub fn count_payments(&mut self, place: &'static str, payments: u8) {
        let payments = Some(payments).filter(|payments| inputs::PAYMENTS.contains(payments));
        *self.payments.entry((place, payments)).or_default() += 1;
    }

    /// Something of `OPEN_JOBS` was met at its place.
    pub fn count_open_jobs(&mut self, place: &'static str, name: &'static str) {
        *self.open_jobs.entry((place, name)).or_default() += 1;
    }

    /// A table that fails check 9, by the condition that was found first. The number of open jobs is found where
    /// nothing else fails; all others are to be met where it is right.
    pub fn failed(&mut self, fault: Fault, table: &Table) {
        self.count_open_jobs("answered though refused 9", "faulty table");
        let recount = table.recount();
        if fault != Fault::OpenJobs && table.open_jobs != recount {
            self.faults_and_number += 1;
            return;
        }
        *self.faults.entry(Some(fault)).or_default() += 1;
        let name = match (table.open_jobs, table.open_jobs.wrapping_sub(recount)) {
            (_, 0) => return,
            (255, _) => "255",
            (_, 1) => "one too high",
            (_, 255) => "one too low",
            _ => "other",
        };
        self.count_open_jobs("refused 9 for it alone", name);
    }

    /// Bytes of this length that are no table.
    pub fn no_table(&mut self, length: usize) {
        *self.faults.entry(None).or_default() += 1;
        if length == BYTES {
            self.count_open_jobs("answered though refused 9", "no table");
        } else {
            *self.lengths.entry(length).or_default() += 1;
        }
    }

    /// Something of `writer_names` was met.
    pub fn count_writer(&mut self, name: &'static str) {
        *self.writer.entry(name).or_default() += 1;
    }

    pub fn table(&mut self, table: &Table) {
        self.most_in_flight = self.most_in_flight.max(table.in_flight);
        self.most_open = self.most_open.max(table.open_jobs);
        let largest = table.jobs.iter().map(|job| job.replica).max();
        self.largest_replica = self.largest_replica.max(largest.unwrap_or(0));
    }

    pub fn print(&self) {
        for (name, counts) in [
            ("identifiers", &self.identifiers),
            ("characters", &self.characters),
            ("terms", &self.terms),
            ("books", &self.books),
            ("opened", &self.opened),
            ("added", &self.added),
        ] {
            let seen = counts.iter().enumerate().filter(|(_, count)| **count > 0);
            let text: Vec<String> = seen.map(|(number, count)| format!("{number}: {count}")).collect();
            println!("{name:12} {}", text.join("  "));
        }
        println!("prices       {}", self.prices);
        println!("yields below 0");
        for (name, count) in &self.below_zero {
            println!("  {name:29} {count}");
        }
        println!("payments per year");
        print_places(&PAYMENTS, &self.payments, |payments| {
            payments.map_or("other".into(), |payments| payments.to_string())
        });
        println!("open jobs");
        print_places(&OPEN_JOBS, &self.open_jobs, str::to_string);
        println!("entries added");
        for name in writer_names() {
            println!("  {name:29} {}", self.writer.get(name).unwrap_or(&0));
        }
        self.print_runs();
        self.print_damaged();
    }

    fn print_runs(&self) {
        println!(
            "runs         {}; pages {}, the longest of {} bytes",
            self.runs, self.pages, self.longest_page
        );
        self.answers.print("answers to the events of runs");
        self.joins.print();
        println!("steals with more than one of these conditions, by the first two");
        for ((first, second), count) in &self.steals {
            println!("  {first:5} {second:23} {count}");
        }
        println!("with 128 messages in flight");
        for (name, count) in &self.full {
            println!("  {name:29} {count}");
        }
        println!(
            "most messages in flight {}; largest replica {}; most open jobs {}",
            self.most_in_flight, self.largest_replica, self.most_open
        );
        println!("messages handled, by what came of them");
        for ((kind, outcome), count) in &self.handled {
            println!("  {:8} {outcome:16} {count}", KINDS[usize::from(*kind)]);
        }
    }

    fn print_damaged(&self) {
        let failed: u64 = self.faults.values().sum::<u64>() + self.faults_and_number;
        println!(
            "damaged tables: {} passed check 9, {failed} did not, by what was found first:",
            self.damaged_passed
        );
        for (fault, count) in &self.faults {
            match fault {
                Some(fault) => println!("  {:24} {count}", format!("{fault:?}")),
                None => println!("  {:24} {count}", "no table"),
            }
        }
        println!("  {:24} {}", "OpenJobs and another", self.faults_and_number);
        let lengths = self.lengths.iter().map(|(length, count)| format!("{length}: {count}"));
        println!("no table by the length: {}", lengths.collect::<Vec<_>>().join("  "));
        self.damaged_answers.print("answers to the events on damaged tables");
    }

    /// What should have been reached and was not.
    pub fn missing(&self) -> Vec<String> {
        let mut missing: Vec<String> = self.answers.missing().collect();
        let faults = Fault::ALL.iter().filter(|fault| !self.faults.contains_key(&Some(**fault)));
        missing.extend(faults.map(|fault| format!("{fault:?}")));
        for (kind, outcome) in never(&OUTCOMES, &self.handled) {
            missing.push(format!("{} {outcome}", KINDS[usize::from(kind)]));
        }
        let pairs = STEAL_PAIRS.iter().filter(|pair| !self.steals.contains_key(*pair));
        missing.extend(pairs.map(|(first, second)| format!("Steal: {first}, {second}")));
        let full = FULL.iter().filter(|name| !self.full.contains_key(*name));
        missing.extend(full.map(|name| format!("128 in flight: {name}")));
        missing.extend((1..=7u8).filter(|n| self.books[usize::from(*n)] == 0).map(|n| format!("book {n}")));
        let yields = BELOW_ZERO.iter().filter(|name| !self.below_zero.contains_key(*name));
        missing.extend(yields.map(|name| format!("yield below 0: {name}")));
        for (place, payments) in never(&PAYMENTS, &self.payments) {
            missing.push(format!("payments {payments:?}: {place}"));
        }
        for (place, name) in never(&OPEN_JOBS, &self.open_jobs) {
            missing.push(format!("open jobs: {place}: {name}"));
        }
        missing.extend(self.joins.missing());
        let names = writer_names().filter(|name| !self.writer.contains_key(name));
        missing.extend(names.map(|name| format!("entry added: {name}")));
        let lengths = OTHER_LENGTHS.iter().filter(|length| !self.lengths.contains_key(length));
        missing.extend(lengths.map(|length| format!("snapshot of {length} bytes")));
        let most = [
            (self.most_in_flight >= 128, "128 in flight"),
            (self.largest_replica >= 5, "replica 5"),
            (self.most_open >= 64, "64 open jobs"),
        ];
        missing.extend(most.iter().filter(|(reached, _)| !reached).map(|(_, name)| name.to_string()));
        missing
    }
}
