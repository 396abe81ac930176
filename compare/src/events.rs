//! The eight events and the handling of the nine kinds of message, with their refusals in order.

use crate::check::check;
use crate::table::*;

/// Nothing, or the number of a refusal.
type Answer = Result<(), u8>;

/// One event on any table: check 9, then the event. The table changes only where the answer is 0.
pub fn step(table: &mut Table, event: &[u8]) -> u8 {
    match check(table) {
        Ok(()) => answer(table, event),
        Err(_) => 9,
    }
}

/// One event on a table that passes check 9.
pub fn answer(table: &mut Table, event: &[u8]) -> u8 {
    match accept(table, event) {
        Ok(()) => 0,
        Err(number) => number,
    }
}

fn refuse(condition: bool, number: u8) -> Answer {
    if condition {
        Err(number)
    } else {
        Ok(())
    }
}

/// 10: "code not 1 to 7, unused b not 0, or fewer than three bytes"; 11: "machine or entry number too
/// large"; then the event's own refusals. By document 02, 2.6: "Number 10 now accepts codes 1 to 8, and 11 is
/// judged against the current count, except that Join's own a is judged only by the new numbers."
fn accept(table: &mut Table, event: &[u8]) -> Answer {
    let &[code, a, b, ..] = event else { return Err(10) };
    refuse(!(1..=8).contains(&code) || (matches!(code, 1 | 5 | 6 | 8) && b != 0), 10)?;
    let a_limit = if code == 1 { table.entries } else { table.machines };
    let b_limit = if code == 4 { table.entries } else { table.machines };
    refuse((code != 8 && a >= a_limit) || (matches!(code, 2 | 3 | 4 | 7) && b >= b_limit), 11)?;
    match code {
        1 => admit(table, a),
        2 => steal(table, a, b),
        3 => deliver(table, a, b),
        4 => start(table, a, b),
        5 => done(table, a),
        6 => die(table, a),
        7 => notice(table, a, b),
        _ => join(table, a),
    }
}

/// "job a becomes open, replica 1, on 0, and enters the root's pool." It is one more of "the number of open
/// jobs" that the table keeps (document 02, 2.4).
fn admit(table: &mut Table, a: u8) -> Answer {
    let job = &mut table.jobs[usize::from(a)];
    refuse(job.state != NOT_ADMITTED, 13)?;
    *job = Job { state: OPEN, replica: 1, ..Job::NONE };
    table.open_jobs += 1;
    table.add_to_pool(0, a, 1);
    Ok(())
}

/// "thief a sends FISH to b and waits on b." The three numbers in the middle are document 02's, 2.5: "14 now
/// means only that thief and victim are the same. [..] 24, thief already waits, after 14; 25, thief was told
/// the victim is dead, after 24." A dead victim's FISH takes no place, so 16 is about a living one (2.10):
/// "such a steal is accepted, nothing is stored, and the thief waits for its notice."
fn steal(table: &mut Table, a: u8, b: u8) -> Answer {
    refuse(!table.alive(a), 12)?;
    refuse(a == b, 14)?;
    refuse(table.machine[usize::from(a)].waits != 0, 24)?;
    refuse(table.was_told(a, b), 25)?;
    refuse(table.alive(b) && table.full(), 16)?;
    table.send(Message { kind: FISH, from: a, to: b, ..Message::NONE });
    table.machine[usize::from(a)].waits = b + 1;
    Ok(())
}

/// "the oldest message from a to b is taken off and handled by b."
fn deliver(table: &mut Table, a: u8, b: u8) -> Answer {
    let message = table.take(a, b).ok_or(15)?;
    match message.kind {
        FISH => fish(table, &message),
        REQ => req(table, &message),
        AUTH | DENIED | OBSOLETE => reply(table, &message),
        SCHEDULE => schedule(table, &message),
        ACK => ack(table, &message),
        NOWORK => table.machine[usize::from(b)].waits = 0,
        _ => result(table, &message),
    }
    Ok(())
}

/// "machine a moves job b from its pool to running."
fn start(table: &mut Table, a: u8, b: u8) -> Answer {
    let machine = &mut table.machine[usize::from(a)];
    let pooled = &mut table.pools[usize::from(a)][usize::from(b)];
    refuse(machine.alive != 1, 12)?;
    refuse(machine.running.is_some(), 17)?;
    refuse(*pooled == 0, 18)?;
    machine.running = Held { job: b, replica: *pooled, thief: 0 };
    *pooled = 0;
    Ok(())
}

/// "the running copy goes and RESULT with its price is sent to the root."
fn done(table: &mut Table, a: u8) -> Answer {
    let Held { job, replica, .. } = table.machine[usize::from(a)].running;
    refuse(!table.alive(a), 12)?;
    refuse(replica == 0, 19)?;
    refuse(table.full(), 16)?;
    let price = table.bonds[usize::from(job)].price();
    table.machine[usize::from(a)].running = Held::NONE;
    table.send(Message { kind: RESULT, from: a, to: 0, job, replica, thief: 0, price });
    Ok(())
}

/// "its pool, reserved, running and waiting are cleared; messages to it are dropped; those it sent stay in
/// flight."
fn die(table: &mut Table, a: u8) -> Answer {
    refuse(a == 0, 20)?;
    refuse(!table.alive(a), 12)?;
    table.machine[usize::from(a)] = Machine::NONE;
    table.pools[usize::from(a)] = [0; ENTRIES];
    table.drop_messages(|message| message.to == a);
    Ok(())
}

/// "a is told that b is dead. Undelivered messages from b to a are dropped. If a waits on b, it stops
/// waiting. If its reserved copy is for thief b, the copy returns to the pool."
fn notice(table: &mut Table, a: u8, b: u8) -> Answer {
    refuse(!table.alive(a), 12)?;
    refuse(table.alive(b), 21)?;
    refuse(table.was_told(a, b), 22)?;
    table.told[usize::from(a)][usize::from(b)] = 1;
    table.drop_messages(|message| message.from == b && message.to == a);
    let machine = &mut table.machine[usize::from(a)];
    if machine.waits == b + 1 {
        machine.waits = 0;
    }
    let reserved = machine.reserved;
    if reserved.is_some() && reserved.thief == b {
        return_reserved(table, a);
    }
    if a == 0 {
        recover(table, b);
    }
    Ok(())
}

/// "If a is the root, each open job on b, or moving from or to b, gets the next replica number, is on 0,
/// and enters the root's pool."
fn recover(table: &mut Table, b: u8) {
    for number in 0..table.entries {
        let job = &mut table.jobs[usize::from(number)];
        if job.state == OPEN && job.concerns(b) {
            job.replica += 1;
            job.put_on(0);
            let replica = job.replica;
            table.add_to_pool(0, number, replica);
        }
    }
}

/// "adds machine a, alive, with empty pool and told of no death. [..] 26, there are 16 already; 27, a is not the
/// next number; in that order." (document 02, 2.6) The dead are among the 16. Pool, told flags and all else of
/// machine a are 0 before, by check 9.
fn join(table: &mut Table, a: u8) -> Answer {
    refuse(usize::from(table.machines) == MACHINES, 26)?;
    refuse(a != table.machines, 27)?;
    table.machines += 1;
    table.machine[usize::from(a)] = Machine::FRESH;
    Ok(())
}

/// The reserved copy returns to the pool.
fn return_reserved(table: &mut Table, machine: u8) {
    let Held { job, replica, .. } = table.machine[usize::from(machine)].reserved;
    table.machine[usize::from(machine)].reserved = Held::NONE;
    table.add_to_pool(machine, job, replica);
}

fn send_nowork(table: &mut Table, from: u8, to: u8) {
    table.send(Message { kind: NOWORK, from, to, ..Message::NONE });
}

/// "FISH from t: with a reserved copy or an empty pool, send t NOWORK; otherwise the lowest job leaves the
/// pool and becomes the copy reserved for t, and REQ (job, replica, t) goes to the root."
fn fish(table: &mut Table, message: &Message) {
    let (victim, thief) = (message.to, message.from);
    let pool = &mut table.pools[usize::from(victim)];
    let reserved = &mut table.machine[usize::from(victim)].reserved;
    let lowest = pool.iter().position(|&replica| replica != 0);
    match lowest {
        Some(job) if !reserved.is_some() => {
            let replica = std::mem::take(&mut pool[job]);
            let job = job as u8;
            *reserved = Held { job, replica, thief };
            table.send(Message { kind: REQ, from: victim, to: 0, job, replica, thief, price: 0 });
        }
        _ => send_nowork(table, victim, thief),
    }
}

/// "REQ from v: if the job is priced or the replica is not current, OBSOLETE to v; else if the root was
/// told t is dead, or the job is moving, DENIED; else the job moves from v to t, AUTH. Each of these three
/// goes to v."
fn req(table: &mut Table, message: &Message) {
    let (root, victim, thief) = (message.to, message.from, message.thief);
    let thief_dead = table.was_told(root, thief);
    let job = &mut table.jobs[usize::from(message.job)];
    let kind = if job.state == PRICED || job.replica != message.replica {
        OBSOLETE
    } else if thief_dead || job.moving == 1 {
        DENIED
    } else {
        job.move_between(victim, thief);
        AUTH
    };
    table.send(Message { kind, from: root, to: victim, ..*message });
}

/// "AUTH, DENIED, OBSOLETE repeat job, replica and thief. Unless all three match the reserved copy they do
/// nothing. AUTH sends t SCHEDULE (job, replica) and the reserved copy is gone; DENIED returns the copy to
/// the pool and sends t NOWORK; OBSOLETE discards it and sends t NOWORK."
fn reply(table: &mut Table, message: &Message) {
    let Message { kind, to: victim, job, replica, thief, .. } = *message;
    if table.machine[usize::from(victim)].reserved != (Held { job, replica, thief }) {
        return;
    }
    if kind == DENIED {
        return_reserved(table, victim);
    }
    table.machine[usize::from(victim)].reserved = Held::NONE;
    if kind == AUTH {
        table.send(Message { kind: SCHEDULE, from: victim, to: thief, job, replica, ..Message::NONE });
    } else {
        send_nowork(table, victim, thief);
    }
}

/// "SCHEDULE: the copy enters the pool, waiting ends, ACK (job, replica) goes to the root."
fn schedule(table: &mut Table, message: &Message) {
    let Message { to: thief, job, replica, .. } = *message;
    table.add_to_pool(thief, job, replica);
    table.machine[usize::from(thief)].waits = 0;
    table.send(Message { kind: ACK, from: thief, to: 0, job, replica, ..Message::NONE });
}

/// "ACK from t: if the job is open and the replica current, the job is on t; else nothing."
fn ack(table: &mut Table, message: &Message) {
    let job = &mut table.jobs[usize::from(message.job)];
    if job.state == OPEN && job.replica == message.replica {
        job.put_on(message.from);
    }
}

/// "RESULT: an open job becomes priced with this price, whichever replica it came from; any other job is
/// untouched." With an open job the kept number is one less (document 02, 2.4).
fn result(table: &mut Table, message: &Message) {
    let job = &mut table.jobs[usize::from(message.job)];
    if job.state == OPEN {
        job.state = PRICED;
        job.price = message.price;
        table.open_jobs -= 1;
    }
}

#[cfg(test)]
mod tests {
    use super::*;
    use crate::book::Book;
    use crate::page::tests::LISTING_BOOK;

    fn played(events: &[[u8; 3]]) -> Table {
        let mut table = Table::open(&Book::read(LISTING_BOOK).unwrap());
        for event in events {
            assert_eq!(step(&mut table, event), 0, "{event:?}");
        }
        table
    }

    #[test]
    fn dead_thief_is_denied() {
        let mut table = played(&[[1, 0, 0], [2, 1, 0], [3, 1, 0], [6, 1, 0], [7, 0, 1]]);
        assert_eq!(table.machine[0].reserved, Held::NONE);
        assert_eq!(step(&mut table, &[3, 0, 0]), 0);
        assert_eq!(table.in_flight()[0].kind, DENIED);
    }

    #[test]
    fn late_ack_leaves_the_place() {
        let mut table = played(&[[1, 0, 0], [2, 1, 0], [3, 1, 0], [3, 0, 0], [3, 0, 0], [3, 0, 1]]);
        table.jobs[0] = Job { state: OPEN, replica: 2, ..Job::NONE };
        assert_eq!(answer(&mut table, &[3, 1, 0]), 0);
        assert_eq!(table.jobs[0], Job { state: OPEN, replica: 2, ..Job::NONE });
    }

    #[test]
    fn refusals() {
        let refused = |event: &[u8]| step(&mut played(&[[1, 0, 0]]), event);
        assert_eq!(refused(&[1, 0]), 10);
        assert_eq!(refused(&[0, 0, 0]), 10);
        assert_eq!(refused(&[9, 2, 0]), 10);
        assert_eq!(refused(&[6, 1, 1]), 10);
        assert_eq!(refused(&[1, 2, 0]), 11);
        assert_eq!(refused(&[4, 0, 2]), 11);
        assert_eq!(refused(&[1, 0, 0]), 13);
        assert_eq!(refused(&[2, 1, 1]), 14);
        assert_eq!(refused(&[3, 0, 1]), 15);
        assert_eq!(refused(&[4, 0, 1]), 18);
        assert_eq!(refused(&[5, 0, 0]), 19);
        assert_eq!(refused(&[6, 0, 0]), 20);
        assert_eq!(refused(&[7, 0, 1]), 21);
    }

    #[test]
    fn three_reasons_of_a_steal() {
        assert_eq!(step(&mut played(&[]), &[2, 0, 0]), 14);
        let mut waiting = played(&[[2, 0, 1]]);
        assert_eq!(step(&mut waiting, &[2, 0, 0]), 14);
        assert_eq!(step(&mut waiting, &[2, 0, 1]), 24);
        let mut told = played(&[[6, 1, 0], [7, 0, 1]]);
        assert_eq!(step(&mut told, &[2, 0, 0]), 14);
        assert_eq!(step(&mut told, &[2, 0, 1]), 25);
        assert_eq!(step(&mut told, &[2, 1, 1]), 12);
        told.machine[0].waits = 2;
        assert_eq!(step(&mut told, &[2, 0, 1]), 24);
    }

    /// The number of open jobs after each event; "it equals a full recount" (document 02, 2.4).
    fn open_after(events: &[[u8; 3]]) -> Vec<u8> {
        let counts = (1..=events.len()).map(|length| {
            let table = played(&events[..length]);
            assert_eq!(table.open_jobs, table.recount());
            table.open_jobs
        });
        counts.collect()
    }

    /// Machine 1 gets job 0 and hands it back, and the root runs it when machine 1 dies: replica 2 enters the
    /// root's pool, and each replica gives a RESULT. The first prices the job, the second finds it priced.
    #[test]
    fn late_result_leaves_the_number() {
        let admitted = [[1, 0, 0], [1, 1, 0]];
        assert_eq!(open_after(&admitted), [1, 2]);
        let there = [[2, 1, 0], [3, 1, 0], [3, 0, 0], [3, 0, 0], [3, 0, 1], [3, 1, 0]];
        let back = [[2, 0, 1], [3, 0, 1], [3, 1, 0], [3, 0, 1], [3, 1, 0]];
        let replicas = [[4, 0, 0], [6, 1, 0], [7, 0, 1], [5, 0, 0], [3, 0, 0]];
        let before = [&admitted[..], &there, &back, &replicas].concat();
        assert!(open_after(&before)[2..].iter().all(|&number| number == 2));
        let late = [&before[..], &[[3, 0, 0], [4, 0, 0], [5, 0, 0]]].concat();
        assert_eq!(played(&late).in_flight()[0].kind, RESULT);
        let all = [&late[..], &[[3, 0, 0], [4, 0, 1], [5, 0, 0], [3, 0, 0]]].concat();
        assert_eq!(open_after(&all)[before.len()..], [1, 1, 1, 1, 1, 1, 0]);
    }

    /// "For every table reached from a fresh one it equals a full recount" (document 02, 2.4): runs of events
    /// at random, those that are refused too.
    #[test]
    fn kept_number_is_the_recount() {
        let mut state = 1u32;
        let mut below = |bound: u32| {
            state = state.wrapping_mul(1_664_525).wrapping_add(1_013_904_223);
            ((state >> 16) % bound) as u8
        };
        let mut seen = [0; 3];
        for _ in 0..60 {
            let mut table = played(&[]);
            for _ in 0..400 {
                let code = [1, 2, 3, 3, 3, 3, 4, 5, 7][usize::from(below(9))];
                let event = if below(400) == 0 { [6, 1, 0] } else { [code, below(2), below(2)] };
                assert_ne!(step(&mut table, &event), 9);
                assert_eq!(table.open_jobs, table.recount());
                seen[usize::from(table.open_jobs)] += 1;
            }
        }
        assert!(seen.iter().all(|&tables| tables > 500), "{seen:?}");
    }

    /// 128 messages in flight, all from the root to itself.
    fn filled(events: &[[u8; 3]]) -> Table {
        let mut table = played(events);
        while !table.full() {
            table.send(Message { kind: FISH, ..Message::NONE });
        }
        table
    }

    #[test]
    fn full_channel_dead_victim() {
        let mut living = filled(&[[1, 0, 0], [4, 0, 0]]);
        assert_eq!(step(&mut living, &[2, 0, 1]), 16);
        assert_eq!(step(&mut living, &[5, 0, 0]), 16);
        let mut dead = filled(&[[1, 0, 0], [4, 0, 0], [6, 1, 0]]);
        let before = dead.clone();
        assert_eq!(step(&mut dead, &[5, 0, 0]), 16);
        assert_eq!(step(&mut dead, &[2, 0, 1]), 0);
        assert_eq!(dead.machine[0].waits, 2);
        assert_eq!(dead.in_flight(), before.in_flight());
        assert_eq!(step(&mut dead, &[2, 0, 1]), 24);
        assert_eq!(step(&mut dead, &[7, 0, 1]), 0);
        assert_eq!(dead.machine[0].waits, 0);
        assert_eq!(step(&mut dead, &[2, 0, 1]), 25);
    }

    /// "adds machine a, alive, with empty pool and told of no death" (document 02, 2.6); all else stays, also with
    /// 128 messages in flight.
    #[test]
    fn join_adds_a_machine() {
        let before = [[1, 0, 0], [2, 1, 0], [6, 1, 0], [7, 0, 1]];
        for mut table in [played(&[]), played(&before), filled(&before)] {
            let mut expected = table.clone();
            (expected.machines, expected.machine[2].alive) = (3, 1);
            assert_eq!(step(&mut table, &[8, 2, 0]), 0);
            assert_eq!(table.to_bytes(), expected.to_bytes());
        }
    }

    /// Until there are 16, 27 for every other number; then 26 for every number, though most are dead. 10 comes
    /// before both.
    #[test]
    fn turned_back_joins() {
        let mut table = played(&[]);
        for machines in 2..16 {
            for a in (0..=255).filter(|a| *a != machines) {
                assert_eq!(step(&mut table, &[8, a, 0]), 27);
            }
            assert_eq!(step(&mut table, &[8, machines, 1]), 10);
            assert_eq!(step(&mut table, &[8, machines]), 10);
            assert_eq!(step(&mut table, &[8, machines, 0]), 0);
            assert_eq!(step(&mut table, &[6, machines, 0]), 0);
        }
        for a in 0..=255 {
            assert_eq!(step(&mut table, &[8, a, 0]), 26);
        }
        assert_eq!(step(&mut table, &[8, 16, 1]), 10);
    }

    /// "11 is judged against the current count" (document 02, 2.6): events that name machine 2, before it joins
    /// and after. The entry count stays.
    #[test]
    fn numbers_of_the_joined() {
        let both = [[2, 2, 0], [2, 0, 2], [3, 2, 0], [3, 0, 2], [7, 2, 0], [7, 0, 2]];
        let one = [[4, 2, 0], [5, 2, 0], [6, 2, 0], [1, 2, 0], [4, 0, 2], [7, 0, 3]];
        let after = [0, 0, 15, 15, 21, 21, 18, 19, 0, 11, 11, 11];
        for (event, number) in both.iter().chain(&one).zip(after) {
            assert_eq!(step(&mut played(&[]), event), 11);
            assert_eq!(step(&mut played(&[[8, 2, 0]]), event), number);
        }
    }

    /// Machine 2 joins after machine 1 has died, and is told of it later: until then its steal from machine 1
    /// waits. Then it takes job 0 from the root and prices it.
    #[test]
    fn joined_machine_prices() {
        let mut table = played(&[[1, 0, 0], [6, 1, 0], [7, 0, 1], [8, 2, 0], [2, 2, 1]]);
        assert_eq!((table.machine[2].waits, table.in_flight), (2, 0));
        assert_eq!(step(&mut table, &[2, 2, 0]), 24);
        assert_eq!(step(&mut table, &[7, 2, 1]), 0);
        assert_eq!(step(&mut table, &[2, 2, 1]), 25);
        let there = [[2, 2, 0], [3, 2, 0], [3, 0, 0], [3, 0, 0], [3, 0, 2], [3, 2, 0]];
        for event in there.iter().chain(&[[4, 2, 0], [5, 2, 0], [3, 2, 0]]) {
            assert_eq!(step(&mut table, event), 0);
        }
        let price = table.bonds[0].price();
        assert_eq!(table.jobs[0], Job { state: PRICED, replica: 1, holder: 2, price, ..Job::NONE });
    }

    /// What stands past the machine count is 0, or the join is refused 9 as every event is.
    #[test]
    fn join_to_a_faulty_table() {
        let changes: [fn(&mut Table); 5] = [
            |table| table.machine[2].waits = 1,
            |table| table.machine[2].alive = 1,
            |table| table.pools[2][0] = 1,
            |table| table.told[2][1] = 1,
            |table| table.told[0][2] = 1,
        ];
        for change in changes {
            let mut table = played(&[[6, 1, 0]]);
            change(&mut table);
            assert_eq!(step(&mut table, &[8, 2, 0]), 9);
        }
    }
}
