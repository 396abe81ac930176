//! The table: "The table opened from a book holds, by value, all of this", and its layout in bytes.
//!
//! Fields are plain bytes, so that a `Table` can hold any numbers; `check` says which are in order.

use crate::book::Book;
use crate::price::{Bond, Terms};

pub const MACHINES: usize = 16;
pub const ENTRIES: usize = 64;
pub const MESSAGES: usize = 128;

/// The bytes of one element of a snapshot.
pub const TERM_BYTES: usize = 19;
pub const JOB_BYTES: usize = 13;
pub const MACHINE_BYTES: usize = 7;
pub const MESSAGE_BYTES: usize = 14;

/// Where each region of a snapshot starts, after the two counts.
pub const TERMS_AT: usize = 2;
pub const JOBS_AT: usize = TERMS_AT + ENTRIES * TERM_BYTES;
pub const MACHINES_AT: usize = JOBS_AT + ENTRIES * JOB_BYTES;
pub const TOLD_AT: usize = MACHINES_AT + MACHINES * MACHINE_BYTES;
pub const POOLS_AT: usize = TOLD_AT + MACHINES * MACHINES;
pub const IN_FLIGHT_AT: usize = POOLS_AT + MACHINES * ENTRIES;
pub const OPEN_JOBS_AT: usize = IN_FLIGHT_AT + 1;
pub const MESSAGES_AT: usize = OPEN_JOBS_AT + 1;
/// The length of a snapshot.
pub const BYTES: usize = MESSAGES_AT + MESSAGES * MESSAGE_BYTES;

/// The state of a job.
pub const NOT_ADMITTED: u8 = 0;
pub const OPEN: u8 = 1;
pub const PRICED: u8 = 2;

/// "not admitted, open or priced, its current replica number, its place (on p, or moving from v to t),
/// its price bits"
#[derive(Clone, Copy, Debug, PartialEq, Eq)]
pub struct Job {
    pub state: u8,
    pub replica: u8,
    /// 1 where the job is moving, 0 where it rests.
    pub moving: u8,
    /// p, or v where the job is moving.
    pub holder: u8,
    /// t where the job is moving, else 0.
    pub thief: u8,
    pub price: u64,
}

/// A copy of a job: reserved for a thief, or running (then `thief` is 0). No copy has replica 0.
#[derive(Clone, Copy, Debug, PartialEq, Eq)]
pub struct Held {
    pub job: u8,
    pub replica: u8,
    pub thief: u8,
}

/// "alive or dead, [..] at most one reserved copy (job, replica, thief), at most one running copy, and the
/// victim it waits on, if any". What it was told and its pool stand in arrays of the table.
#[derive(Clone, Copy, Debug, PartialEq, Eq)]
pub struct Machine {
    /// 1 alive, 0 dead.
    pub alive: u8,
    pub reserved: Held,
    pub running: Held,
    /// The victim's number and 1 more; 0 where it waits on none.
    pub waits: u8,
}

/// The kinds of message.
pub const FISH: u8 = 1;
pub const REQ: u8 = 2;
pub const AUTH: u8 = 3;
pub const DENIED: u8 = 4;
pub const OBSOLETE: u8 = 5;
pub const SCHEDULE: u8 = 6;
pub const ACK: u8 = 7;
pub const NOWORK: u8 = 8;
pub const RESULT: u8 = 9;

/// A message in flight. What its kind has no use for is 0.
#[derive(Clone, Copy, Debug, PartialEq, Eq)]
pub struct Message {
    pub kind: u8,
    pub from: u8,
    pub to: u8,
    pub job: u8,
    pub replica: u8,
    pub thief: u8,
    pub price: u64,
}

/// The whole state.
#[derive(Clone, Debug)]
pub struct Table {
    pub machines: u8,
    pub entries: u8,
    pub bonds: [Bond; ENTRIES],
    pub jobs: [Job; ENTRIES],
    pub machine: [Machine; MACHINES],
    /// `told[m][d]` is 1 where machine m was told that d is dead.
    pub told: [[u8; MACHINES]; MACHINES],
    /// `pools[m][j]` is the replica of job j in m's pool, 0 for none.
    pub pools: [[u8; ENTRIES]; MACHINES],
    /// "up to 128 messages in flight, in order of sending"
    pub in_flight: u8,
    /// "The table keeps the number of open jobs." (document 02, 2.4)
    pub open_jobs: u8,
    pub messages: [Message; MESSAGES],
}

impl Job {
    pub const NONE: Job = Job { state: NOT_ADMITTED, replica: 0, moving: 0, holder: 0, thief: 0, price: 0 };

    /// "on p"
    pub fn put_on(&mut self, machine: u8) {
        (self.moving, self.holder, self.thief) = (0, machine, 0);
    }

    /// "moving from v to t"
    pub fn move_between(&mut self, victim: u8, thief: u8) {
        (self.moving, self.holder, self.thief) = (1, victim, thief);
    }

    /// "on b, or moving from or to b"
    pub fn concerns(&self, machine: u8) -> bool {
        self.holder == machine || (self.moving == 1 && self.thief == machine)
    }
}

impl Held {
    pub const NONE: Held = Held { job: 0, replica: 0, thief: 0 };

    pub fn is_some(&self) -> bool {
        self.replica != 0
    }
}

impl Machine {
    pub const NONE: Machine = Machine { alive: 0, reserved: Held::NONE, running: Held::NONE, waits: 0 };
    pub const FRESH: Machine = Machine { alive: 1, ..Machine::NONE };
}

impl Message {
    pub const NONE: Message = Message { kind: 0, from: 0, to: 0, job: 0, replica: 0, thief: 0, price: 0 };
}

impl Table {
    /// "A table as opened is fresh: every machine alive and told of nothing, no job admitted, no copy,
    /// wait or message."
    pub fn open(book: &Book) -> Table {
        let machine = |m| if m < book.machines { Machine::FRESH } else { Machine::NONE };
        Table {
            machines: book.machines as u8,
            entries: book.entries as u8,
            bonds: std::array::from_fn(|entry| book.bond(entry)),
            jobs: [Job::NONE; ENTRIES],
            machine: std::array::from_fn(machine),
            told: [[0; MACHINES]; MACHINES],
            pools: [[0; ENTRIES]; MACHINES],
            in_flight: 0,
            open_jobs: 0,
            messages: [Message::NONE; MESSAGES],
        }
    }

    pub fn alive(&self, machine: u8) -> bool {
        self.machine[usize::from(machine)].alive == 1
    }

    pub fn was_told(&self, machine: u8, of: u8) -> bool {
        self.told[usize::from(machine)][usize::from(of)] == 1
    }

    pub fn full(&self) -> bool {
        usize::from(self.in_flight) >= MESSAGES
    }

    pub fn in_flight(&self) -> &[Message] {
        &self.messages[..usize::from(self.in_flight)]
    }

    /// "A message to a dead machine is stored nowhere."
    pub fn send(&mut self, message: Message) {
        if self.alive(message.to) {
            self.messages[usize::from(self.in_flight)] = message;
            self.in_flight += 1;
        }
    }

    /// "the oldest message from a to b is taken off"
    pub fn take(&mut self, from: u8, to: u8) -> Option<Message> {
        let at = self.in_flight().iter().position(|m| m.from == from && m.to == to)?;
        let message = self.messages[at];
        let end = usize::from(self.in_flight);
        self.messages.copy_within(at + 1..end, at);
        self.messages[end - 1] = Message::NONE;
        self.in_flight -= 1;
        Some(message)
    }

    /// Messages that match are dropped; the others keep their order and fill the slots from the first.
    pub fn drop_messages(&mut self, matching: impl Fn(&Message) -> bool) {
        let mut kept = 0;
        for slot in 0..usize::from(self.in_flight) {
            let message = self.messages[slot];
            if !matching(&message) {
                self.messages[kept] = message;
                kept += 1;
            }
        }
        self.messages[kept..usize::from(self.in_flight)].fill(Message::NONE);
        self.in_flight = kept as u8;
    }

    /// "Adding a copy to a pool keeps the larger replica number."
    pub fn add_to_pool(&mut self, machine: u8, job: u8, replica: u8) {
        let held = &mut self.pools[usize::from(machine)][usize::from(job)];
        *held = replica.max(*held);
    }

    /// The number of open jobs by "a full recount" (document 02, 2.4).
    pub fn recount(&self) -> u8 {
        self.jobs.iter().filter(|job| job.state == OPEN).count() as u8
    }
}

/// How many jobs are still open, of a snapshot whose bytes may be anything: "the answer reads that number
/// only" (document 02, 2.4). 255 for bytes of another length, which keep no number.
pub fn open_jobs(snapshot: &[u8]) -> u8 {
    if snapshot.len() == BYTES {
        snapshot[OPEN_JOBS_AT]
    } else {
        255
    }
}

/// Takes bytes and little-endian words off the front of a snapshot, which is long enough for all.
struct Reader<'a>(&'a [u8]);

impl Reader<'_> {
    fn bytes<const N: usize>(&mut self) -> [u8; N] {
        let (bytes, rest) = self.0.split_first_chunk().expect("a table's bytes");
        self.0 = rest;
        *bytes
    }

    fn word(&mut self) -> u64 {
        u64::from_le_bytes(self.bytes())
    }

    /// Case (0 zero-coupon, 1 fixed), periods, payments per year, coupon, yield. None for another case, and
    /// for a zero-coupon entry with a coupon.
    fn bond(&mut self) -> Option<Bond> {
        let [case, periods, payments] = self.bytes();
        let (coupon, ytm) = (f64::from_bits(self.word()), f64::from_bits(self.word()));
        let terms = match case {
            0 if coupon.to_bits() == 0 => Terms::Zero { ytm },
            1 => Terms::Fixed { coupon, ytm },
            _ => return None,
        };
        Some(Bond { periods, payments, terms })
    }

    fn job(&mut self) -> Job {
        let [state, replica, moving, holder, thief] = self.bytes();
        Job { state, replica, moving, holder, thief, price: self.word() }
    }

    fn machine(&mut self) -> Machine {
        let [alive, job, replica, thief, running_job, running_replica, waits] = self.bytes();
        let running = Held { job: running_job, replica: running_replica, thief: 0 };
        Machine { alive, reserved: Held { job, replica, thief }, running, waits }
    }

    fn message(&mut self) -> Message {
        let [kind, from, to, job, replica, thief] = self.bytes();
        Message { kind, from, to, job, replica, thief, price: self.word() }
    }
}

/// Puts bytes and little-endian words one after another.
struct Writer<'a> {
    out: &'a mut [u8; BYTES],
    at: usize,
}

impl Writer<'_> {
    fn bytes(&mut self, bytes: &[u8]) {
        self.out[self.at..self.at + bytes.len()].copy_from_slice(bytes);
        self.at += bytes.len();
    }

    fn bond(&mut self, bond: &Bond) {
        let (case, coupon, ytm) = match bond.terms {
            Terms::Zero { ytm } => (0, 0.0, ytm),
            Terms::Fixed { coupon, ytm } => (1, coupon, ytm),
        };
        self.bytes(&[case, bond.periods, bond.payments]);
        self.bytes(&coupon.to_le_bytes());
        self.bytes(&ytm.to_le_bytes());
    }

    fn job(&mut self, job: &Job) {
        self.bytes(&[job.state, job.replica, job.moving, job.holder, job.thief]);
        self.bytes(&job.price.to_le_bytes());
    }

    fn machine(&mut self, machine: &Machine) {
        let Machine { alive, reserved, running, waits } = machine;
        self.bytes(&[*alive, reserved.job, reserved.replica, reserved.thief]);
        self.bytes(&[running.job, running.replica, *waits]);
    }

    fn message(&mut self, m: &Message) {
        self.bytes(&[m.kind, m.from, m.to, m.job, m.replica, m.thief]);
        self.bytes(&m.price.to_le_bytes());
    }
}

impl Table {
    /// The table that a snapshot's bytes hold; None where they hold none.
    pub fn from_bytes(bytes: &[u8]) -> Option<Table> {
        if bytes.len() != BYTES {
            return None;
        }
        let mut from = Reader(bytes);
        let [machines, entries] = from.bytes();
        let mut bonds = [Bond::NONE; ENTRIES];
        for bond in &mut bonds {
            *bond = from.bond()?;
        }
        Some(Table {
            machines,
            entries,
            bonds,
            jobs: std::array::from_fn(|_| from.job()),
            machine: std::array::from_fn(|_| from.machine()),
            told: std::array::from_fn(|_| from.bytes()),
            pools: std::array::from_fn(|_| from.bytes()),
            in_flight: from.bytes::<1>()[0],
            open_jobs: from.bytes::<1>()[0],
            messages: std::array::from_fn(|_| from.message()),
        })
    }

    /// The bytes that keep this table.
    pub fn to_bytes(&self) -> [u8; BYTES] {
        let mut out = [0; BYTES];
        let mut to = Writer { out: &mut out, at: 0 };
        to.bytes(&[self.machines, self.entries]);
        self.bonds.iter().for_each(|bond| to.bond(bond));
        self.jobs.iter().for_each(|job| to.job(job));
        self.machine.iter().for_each(|machine| to.machine(machine));
        to.bytes(self.told.as_flattened());
        to.bytes(self.pools.as_flattened());
        to.bytes(&[self.in_flight, self.open_jobs]);
        self.messages.iter().for_each(|message| to.message(message));
        out
    }
}

#[cfg(test)]
mod tests {
    use super::*;

    #[test]
    fn bytes_there_and_back() {
        let mut bytes: [u8; BYTES] = std::array::from_fn(|i| (i % 251) as u8);
        for entry in 0..ENTRIES {
            let at = TERMS_AT + entry * TERM_BYTES;
            bytes[at] = (entry % 2) as u8;
            if entry % 2 == 0 {
                bytes[at + 3..at + 11].fill(0);
            }
        }
        assert_eq!(Table::from_bytes(&bytes).unwrap().to_bytes(), bytes);
        assert!(Table::from_bytes(&bytes[1..]).is_none());
        assert!(Table::from_bytes(&bytes[..BYTES - 1 - ENTRIES]).is_none());
        bytes[TERMS_AT + 3] = 1;
        assert!(Table::from_bytes(&bytes).is_none());
    }

    /// The numbers of docs/LAYOUT.md.
    #[test]
    fn places() {
        assert_eq!([JOBS_AT, MACHINES_AT, TOLD_AT, POOLS_AT], [1218, 2050, 2162, 2418]);
        assert_eq!([IN_FLIGHT_AT, OPEN_JOBS_AT, MESSAGES_AT, BYTES], [3442, 3443, 3444, 5236]);
    }

    #[test]
    fn offsets() {
        let mut table = Table::open(&Book::read(&[16, 0, 0, 0]).unwrap());
        table.bonds[0] = Bond { periods: 98, payments: 99, ..Bond::NONE };
        table.jobs[0].state = 101;
        table.machine[0].alive = 102;
        table.told[0][0] = 103;
        table.pools[0][0] = 104;
        table.in_flight = 105;
        table.open_jobs = 106;
        table.messages[0].kind = 107;
        let bytes = table.to_bytes();
        assert_eq!(bytes[TERMS_AT..TERMS_AT + 4], [0, 98, 99, 0]);
        assert_eq!([bytes[JOBS_AT], bytes[MACHINES_AT], bytes[TOLD_AT]], [101, 102, 103]);
        assert_eq!([bytes[POOLS_AT], bytes[IN_FLIGHT_AT]], [104, 105]);
        assert_eq!([bytes[OPEN_JOBS_AT], bytes[MESSAGES_AT]], [106, 107]);
    }

    /// The byte that is kept, also of bytes that are no table; 255 for another length.
    #[test]
    fn question() {
        let mut bytes = vec![7; BYTES];
        assert!(Table::from_bytes(&bytes).is_none());
        for kept in 0..=u8::MAX {
            bytes[OPEN_JOBS_AT] = kept;
            assert_eq!(open_jobs(&bytes), kept);
        }
        bytes.fill(7);
        bytes.push(7);
        for length in [0, 1, OPEN_JOBS_AT + 1, BYTES - 1, BYTES + 1] {
            assert_eq!(open_jobs(&bytes[..length]), 255);
        }
    }
}
