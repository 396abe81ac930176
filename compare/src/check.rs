//! Check 9, "before any event": what a table must satisfy, condition by condition.

use crate::price::Bond;
use crate::table::*;

/// The conditions of row 9, and of "What a state, slot or message kind has no use for is 0".
#[derive(Clone, Copy, Debug, PartialEq, Eq, Hash, PartialOrd, Ord)]
pub enum Fault {
    // "a count [..] outside its range"
    MachineCount,
    EntryCount,
    MessageCount,
    // "a [..] term outside its range"
    TermOutOfRange,
    // "a [..] number [..] outside its range"
    JobMachineNumber,
    JobReplicaZero,
    ReservedNumber,
    RunningNumber,
    WaitNumber,
    MessageMachineNumber,
    MessageJobNumber,
    MessageThiefNumber,
    MessageReplicaZero,
    // "a [..] state [..] outside its range"
    JobState,
    JobMoving,
    AliveFlag,
    ToldFlag,
    MessageKind,
    // "an unused part not 0"
    UnusedTerm,
    UnusedJob,
    UnusedMachine,
    UnusedTold,
    UnusedPool,
    UnusedSlot,
    NotAdmittedJob,
    OpenJobPrice,
    RestingJobThief,
    DeadMachine,
    NoReserved,
    NoRunning,
    MessageField,
    // the others, in row 9's order
    MessageToDead,
    NotToRoot,
    RootNotAlive,
    LivingToldDead,
    ReplicaTooLarge,
    // document 02, 2.4: "a table whose kept number differs from the recount"
    OpenJobs,
}

impl Fault {
    /// Every condition.
    pub const ALL: [Fault; 37] = [
        Fault::MachineCount,
        Fault::EntryCount,
        Fault::MessageCount,
        Fault::TermOutOfRange,
        Fault::JobMachineNumber,
        Fault::JobReplicaZero,
        Fault::ReservedNumber,
        Fault::RunningNumber,
        Fault::WaitNumber,
        Fault::MessageMachineNumber,
        Fault::MessageJobNumber,
        Fault::MessageThiefNumber,
        Fault::MessageReplicaZero,
        Fault::JobState,
        Fault::JobMoving,
        Fault::AliveFlag,
        Fault::ToldFlag,
        Fault::MessageKind,
        Fault::UnusedTerm,
        Fault::UnusedJob,
        Fault::UnusedMachine,
        Fault::UnusedTold,
        Fault::UnusedPool,
        Fault::UnusedSlot,
        Fault::NotAdmittedJob,
        Fault::OpenJobPrice,
        Fault::RestingJobThief,
        Fault::DeadMachine,
        Fault::NoReserved,
        Fault::NoRunning,
        Fault::MessageField,
        Fault::MessageToDead,
        Fault::NotToRoot,
        Fault::RootNotAlive,
        Fault::LivingToldDead,
        Fault::ReplicaTooLarge,
        Fault::OpenJobs,
    ];
}

type Verdict = Result<(), Fault>;

/// What numbers of a table may not exceed.
struct Limits {
    machines: usize,
    entries: usize,
    replica: u8,
}

/// Whether a table passes check 9, or one of the conditions that it fails: the last one only where it fails no
/// other.
pub fn check(table: &Table) -> Verdict {
    let limits = counts(table)?;
    for entry in 0..ENTRIES {
        bond(&table.bonds[entry], entry, &limits)?;
        job(&table.jobs[entry], entry, &limits)?;
    }
    for number in 0..MACHINES {
        machine(&table.machine[number], number, &limits)?;
        told(table, number, &limits)?;
        pool(table, number, &limits)?;
    }
    for slot in 0..MESSAGES {
        message(table, slot, &limits)?;
    }
    need(table.alive(0), Fault::RootNotAlive)?;
    need(table.open_jobs == table.recount(), Fault::OpenJobs)
}

fn need(holds: bool, fault: Fault) -> Verdict {
    if holds {
        Ok(())
    } else {
        Err(fault)
    }
}

/// "machine count, 2 to 16", "entry count n, 0 to 64", "up to 128 messages"; "1 + the deaths the root was
/// told of".
fn counts(table: &Table) -> Result<Limits, Fault> {
    let (machines, entries) = (usize::from(table.machines), usize::from(table.entries));
    need((2..=MACHINES).contains(&machines), Fault::MachineCount)?;
    need(entries <= ENTRIES, Fault::EntryCount)?;
    need(usize::from(table.in_flight) <= MESSAGES, Fault::MessageCount)?;
    let deaths = table.told[0].iter().filter(|&&flag| flag == 1).count();
    Ok(Limits { machines, entries, replica: 1 + deaths as u8 })
}

fn bond(bond: &Bond, entry: usize, limits: &Limits) -> Verdict {
    if entry >= limits.entries {
        return need(bond.is_none(), Fault::UnusedTerm);
    }
    need(bond.in_range(), Fault::TermOutOfRange)
}

/// "a job not admitted has replica 0 and place 0, a job not priced has price bits 0"; "The replica number
/// of an open or priced job [..] is at least 1."
fn job(job: &Job, entry: usize, limits: &Limits) -> Verdict {
    if entry >= limits.entries {
        return need(*job == Job::NONE, Fault::UnusedJob);
    }
    need(job.state <= PRICED, Fault::JobState)?;
    if job.state == NOT_ADMITTED {
        return need(*job == Job::NONE, Fault::NotAdmittedJob);
    }
    need(job.replica >= 1, Fault::JobReplicaZero)?;
    need(job.replica <= limits.replica, Fault::ReplicaTooLarge)?;
    need(job.moving <= 1, Fault::JobMoving)?;
    need(usize::from(job.holder) < limits.machines, Fault::JobMachineNumber)?;
    need(usize::from(job.thief) < limits.machines, Fault::JobMachineNumber)?;
    need(job.moving == 1 || job.thief == 0, Fault::RestingJobThief)?;
    need(job.state == PRICED || job.price == 0, Fault::OpenJobPrice)
}

/// "a dead machine has [..] no reserved copy, running copy or wait"
fn machine(machine: &Machine, number: usize, limits: &Limits) -> Verdict {
    if number >= limits.machines {
        return need(*machine == Machine::NONE, Fault::UnusedMachine);
    }
    need(machine.alive <= 1, Fault::AliveFlag)?;
    if machine.alive == 0 {
        return need(*machine == Machine::NONE, Fault::DeadMachine);
    }
    held(&machine.reserved, limits, Fault::NoReserved, Fault::ReservedNumber)?;
    held(&machine.running, limits, Fault::NoRunning, Fault::RunningNumber)?;
    need(usize::from(machine.waits) <= limits.machines, Fault::WaitNumber)
}

/// A reserved or running copy, or none.
fn held(copy: &Held, limits: &Limits, none: Fault, number: Fault) -> Verdict {
    if !copy.is_some() {
        return need(*copy == Held::NONE, none);
    }
    need(usize::from(copy.job) < limits.entries, number)?;
    need(usize::from(copy.thief) < limits.machines, number)?;
    need(copy.replica <= limits.replica, Fault::ReplicaTooLarge)
}

/// "a living machine told of as dead"; a dead machine keeps what it was told.
fn told(table: &Table, number: usize, limits: &Limits) -> Verdict {
    for (of, &flag) in table.told[number].iter().enumerate() {
        if number >= limits.machines || of >= limits.machines {
            need(flag == 0, Fault::UnusedTold)?;
        } else {
            need(flag <= 1, Fault::ToldFlag)?;
            need(flag == 0 || table.machine[of].alive == 0, Fault::LivingToldDead)?;
        }
    }
    Ok(())
}

/// "a dead machine has an empty pool"
fn pool(table: &Table, number: usize, limits: &Limits) -> Verdict {
    for (entry, &replica) in table.pools[number].iter().enumerate() {
        if number >= limits.machines || entry >= limits.entries {
            need(replica == 0, Fault::UnusedPool)?;
        } else if table.machine[number].alive == 0 {
            need(replica == 0, Fault::DeadMachine)?;
        }
        need(replica <= limits.replica, Fault::ReplicaTooLarge)?;
    }
    Ok(())
}

/// "messages fill the slots from the first and unused slots are all 0"
fn message(table: &Table, slot: usize, limits: &Limits) -> Verdict {
    let message = &table.messages[slot];
    if slot >= usize::from(table.in_flight) {
        return need(*message == Message::NONE, Fault::UnusedSlot);
    }
    need((FISH..=RESULT).contains(&message.kind), Fault::MessageKind)?;
    need(usize::from(message.from) < limits.machines, Fault::MessageMachineNumber)?;
    need(usize::from(message.to) < limits.machines, Fault::MessageMachineNumber)?;
    carried(message, limits)?;
    need(table.alive(message.to), Fault::MessageToDead)?;
    need(message.to == 0 || !matches!(message.kind, REQ | ACK | RESULT), Fault::NotToRoot)
}

/// What a message carries by its kind, and 0 in what it does not: FISH and NOWORK nothing; REQ, AUTH,
/// DENIED, OBSOLETE (job, replica, thief); SCHEDULE and ACK (job, replica); RESULT job, replica and price.
fn carried(message: &Message, limits: &Limits) -> Verdict {
    let copy = !matches!(message.kind, FISH | NOWORK);
    let thief = matches!(message.kind, REQ | AUTH | DENIED | OBSOLETE);
    if copy {
        need(usize::from(message.job) < limits.entries, Fault::MessageJobNumber)?;
        need(message.replica >= 1, Fault::MessageReplicaZero)?;
        need(message.replica <= limits.replica, Fault::ReplicaTooLarge)?;
    } else {
        need(message.job == 0 && message.replica == 0, Fault::MessageField)?;
    }
    if thief {
        need(usize::from(message.thief) < limits.machines, Fault::MessageThiefNumber)?;
    } else {
        need(message.thief == 0, Fault::MessageField)?;
    }
    need(message.kind == RESULT || message.price == 0, Fault::MessageField)
}

#[cfg(test)]
mod tests {
    use super::*;
    use crate::book::Book;
    use crate::events::step;
    use crate::page::tests::LISTING_BOOK;

    fn fresh() -> Table {
        Table::open(&Book::read(&[3, 0, 0, 0]).unwrap())
    }

    #[test]
    fn fresh_passes() {
        assert_eq!(check(&fresh()), Ok(()));
    }

    /// Document 02, 2.3: 0 of a book is 2 in its table; an entry in use has one of the four, another none.
    #[test]
    fn payments() {
        let term = [&[1, 20, 0][..], &[0; 16]].concat();
        let book = [&[3, 0, 1, 0][..], b"ZZ0000000016", &term].concat();
        let opened = Table::open(&Book::read(&book).unwrap());
        assert_eq!((opened.bonds[0].payments, opened.bonds[1].payments), (2, 0));
        let passing = |entry: usize| {
            let passes = |payments: &u8| {
                let mut table = opened.clone();
                table.bonds[entry].payments = *payments;
                check(&table).is_ok()
            };
            (0..=u8::MAX).filter(passes).collect::<Vec<u8>>()
        };
        assert_eq!((passing(0), passing(1), passing(63)), (vec![1, 2, 4, 12], vec![0], vec![0]));
    }

    #[test]
    fn a_few_faults() {
        let faulty = |damage: fn(&mut Table)| {
            let mut table = fresh();
            damage(&mut table);
            check(&table).unwrap_err()
        };
        assert_eq!(faulty(|t| t.machines = 17), Fault::MachineCount);
        assert_eq!(faulty(|t| t.machine[0].alive = 0), Fault::RootNotAlive);
        assert_eq!(faulty(|t| t.told[1][2] = 1), Fault::LivingToldDead);
        assert_eq!(faulty(|t| t.pools[1][0] = 1), Fault::UnusedPool);
        assert_eq!(faulty(|t| t.machine[1].waits = 4), Fault::WaitNumber);
        assert_eq!(faulty(|t| t.messages[0].kind = FISH), Fault::UnusedSlot);
        assert_eq!(faulty(|t| t.open_jobs = 1), Fault::OpenJobs);
    }

    /// "An event on a table whose kept number differs from the recount is refused 9." (document 02, 2.4) Here
    /// it is an event of no bytes, which is else refused 10.
    #[test]
    fn kept_number() {
        let mut table = Table::open(&Book::read(LISTING_BOOK).unwrap());
        for open in 0..2 {
            for kept in 0..=u8::MAX {
                let mut changed = Table { open_jobs: kept, ..table.clone() };
                assert_eq!(step(&mut changed, &[]), if kept == open { 10 } else { 9 });
            }
            assert_eq!(step(&mut table, &[1, open, 0]), 0);
        }
    }
}
