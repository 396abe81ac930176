//! What is met of machines that join (document 02, 2.6): each answer of a join, and events of runs that name a
//! machine which the book did not have.

use crate::cases::oldest;
use crate::coverage::{never, print_places, EVENTS};
use second::check::Fault;
use second::table::*;
use std::collections::{BTreeMap, BTreeSet};

const RUN: &str = "event of a run";
const DAMAGED: &str = "event on a damaged table";
const A_NOT_THERE: &str = "11, no machine a yet";
const B_NOT_THERE: &str = "11, no machine b yet";
const SAME_EVENT: &str = "the same event, then not 11";
const JOINED: &str = "accepted, of one that joined";

const ACCEPTED: &[&str] =
    &["nothing in flight", "some in flight", "128 in flight", "all alive", "some dead", "root alone", "16th"];
const REFUSED: &[&str] = &[
    "10, else accepted",
    "10, else 26",
    "10, else 27",
    "26, a is 16",
    "26 and 27",
    "26, some dead",
    "27, a lives",
    "27, a is dead",
    "27, one above",
    "27, more above",
    "27, 16 or more",
];

/// What is to be met, by place.
const JOINS: [(&str, &[&str]); 9] = [
    (RUN, ACCEPTED),
    (RUN, REFUSED),
    (DAMAGED, ACCEPTED),
    (DAMAGED, REFUSED),
    (DAMAGED, &["9", "9, past the machine count"]),
    (A_NOT_THERE, &["Steal", "Deliver", "Start", "Done", "Die", "Notice"]),
    (B_NOT_THERE, &["Steal", "Deliver", "Notice"]),
    (SAME_EVENT, &["Steal", "Deliver", "Start", "Done", "Die", "Notice"]),
    (
        JOINED,
        &[
            "Steal by it",
            "Steal from it",
            "Steal by it from one dead before",
            "Deliver from it",
            "Deliver to it",
            "RESULT, open",
            "RESULT, priced",
            "Start",
            "Done",
            "Die",
            "Notice to it",
            "Notice to it of one dead before",
            "Notice of it",
            "Notice of it, recovered",
        ],
    ),
];

#[derive(Default)]
pub struct Joins {
    /// By the places of `JOINS` and what was met there.
    counts: BTreeMap<(&'static str, &'static str), u64>,
    /// Runs in which a machine joined, with their joins and events; and those of them in which a machine that
    /// joined has priced a bond.
    runs: u64,
    joins: u64,
    events: u64,
    pricing: u64,
}

impl Joins {
    fn count(&mut self, place: &'static str, name: &'static str) {
        *self.counts.entry((place, name)).or_default() += 1;
    }

    fn count_all(&mut self, place: &'static str, names: Vec<(&'static str, bool)>) {
        names.into_iter().filter(|(_, holds)| *holds).for_each(|(name, _)| self.count(place, name));
    }

    /// An event on a table that passes check 9, and its number.
    pub fn answered(&mut self, place: &'static str, table: &Table, event: &[u8], number: u8) {
        if let [8, a, _, ..] = *event {
            self.count_all(place, join(table, a, number));
        }
    }

    /// An event that is refused 9.
    pub fn refused_nine(&mut self, event: &[u8], fault: Option<Fault>) {
        if event.first() == Some(&8) {
            let past = [Fault::UnusedMachine, Fault::UnusedTold, Fault::UnusedPool].map(Some);
            self.count_all(DAMAGED, vec![("9", true), ("9, past the machine count", past.contains(&fault))]);
        }
    }

    pub fn print(&self) {
        println!("machines that join");
        println!(
            "  runs with a join {}, their joins {}, their events {}; of these runs {} price a bond on one that joined",
            self.runs, self.joins, self.events, self.pricing
        );
        print_places(&JOINS, &self.counts, str::to_string);
    }

    pub fn missing(&self) -> impl Iterator<Item = String> {
        never(&JOINS, &self.counts).into_iter().map(|(place, name)| format!("join: {place}: {name}"))
    }
}

/// What a join of machine a meets, by its number.
fn join(table: &Table, a: u8, number: u8) -> Vec<(&'static str, bool)> {
    let count = table.machines;
    let dead = (0..count).any(|machine| !table.alive(machine));
    let room = usize::from(count) < MACHINES;
    match number {
        0 => vec![
            ("nothing in flight", table.in_flight == 0),
            ("some in flight", table.in_flight > 0),
            ("128 in flight", table.full()),
            ("all alive", !dead),
            ("some dead", dead),
            ("root alone", (1..count).all(|machine| !table.alive(machine))),
            ("16th", usize::from(count) == MACHINES - 1),
        ],
        10 => vec![
            ("10, else accepted", room && a == count),
            ("10, else 26", !room),
            ("10, else 27", room && a != count),
        ],
        26 => vec![("26, a is 16", a == count), ("26 and 27", a != count), ("26, some dead", dead)],
        _ => vec![
            ("27, a lives", a < count && table.alive(a)),
            ("27, a is dead", a < count && !table.alive(a)),
            ("27, one above", a == count + 1),
            ("27, more above", a > count + 1),
            ("27, 16 or more", usize::from(a) >= MACHINES),
        ],
    }
}

/// A run, as far as machines join in it.
pub struct Run {
    /// The machine count of the book.
    first: u8,
    /// Who was dead when each machine joined.
    dead: [[bool; MACHINES]; MACHINES],
    /// Events that were refused 11.
    refused: BTreeSet<[u8; 3]>,
    joins: u64,
    events: u64,
    prices: bool,
}

impl Run {
    pub fn new(table: &Table) -> Run {
        let dead = [[false; MACHINES]; MACHINES];
        Run { first: table.machines, dead, refused: BTreeSet::new(), joins: 0, events: 0, prices: false }
    }

    /// An event on the table before it, and its number.
    pub fn event(&mut self, joins: &mut Joins, table: &Table, event: &[u8], number: u8) {
        self.events += 1;
        let &[code, a, b, ..] = event else { return };
        if code == 8 && number == 0 {
            self.joins += 1;
            (0..table.machines).for_each(|b| self.dead[usize::from(a)][usize::from(b)] = !table.alive(b));
        }
        if (2..=7).contains(&code) {
            self.named(joins, table, [code, a, b], number);
        }
    }

    /// An event whose numbers are those of machines, but for b of Start and an unused b.
    fn named(&mut self, joins: &mut Joins, table: &Table, event: [u8; 3], number: u8) {
        let [code, a, b] = event;
        let name = EVENTS[usize::from(code)];
        let to_come = |number: u8| (table.machines..MACHINES as u8).contains(&number);
        match number {
            11 => {
                self.refused.insert(event);
                joins.count_all(A_NOT_THERE, vec![(name, to_come(a))]);
                joins.count_all(B_NOT_THERE, vec![(name, code != 4 && to_come(b))]);
            }
            0 => joins.count_all(JOINED, self.joined(table, event)),
            _ => {}
        }
        if number != 11 {
            joins.count_all(SAME_EVENT, vec![(name, self.refused.contains(&event))]);
        }
    }

    /// What an accepted event meets of machines that joined.
    fn joined(&mut self, table: &Table, event: [u8; 3]) -> Vec<(&'static str, bool)> {
        let [code, a, b] = event;
        let (by, of) = (a >= self.first, b >= self.first);
        let before = by && matches!(code, 2 | 7) && self.dead[usize::from(a)][usize::from(b)];
        let recovered = |job: &Job| job.state == OPEN && job.concerns(b);
        let result = oldest(table, &event).filter(|message| by && message.kind == RESULT);
        let state = result.map(|message| table.jobs[usize::from(message.job)].state);
        self.prices |= state == Some(OPEN);
        match code {
            2 => {
                vec![("Steal by it", by), ("Steal from it", of), ("Steal by it from one dead before", before)]
            }
            3 => vec![
                ("Deliver from it", by),
                ("Deliver to it", of),
                ("RESULT, open", state == Some(OPEN)),
                ("RESULT, priced", state == Some(PRICED)),
            ],
            7 => vec![
                ("Notice to it", by),
                ("Notice to it of one dead before", before),
                ("Notice of it", of),
                ("Notice of it, recovered", of && a == 0 && table.jobs.iter().any(recovered)),
            ],
            _ => vec![(EVENTS[usize::from(code)], by)],
        }
    }

    /// The run ends here.
    pub fn end(self, joins: &mut Joins) {
        if self.joins > 0 {
            joins.runs += 1;
            joins.joins += self.joins;
            joins.events += self.events;
            joins.pricing += u64::from(self.prices);
        }
    }
}
