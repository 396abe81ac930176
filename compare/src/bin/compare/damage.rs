//! Tables that no run reaches: changed within the rules of check 9, and beyond them.

use crate::fields;
use crate::inputs;
use crate::rng::Rng;
use second::book;
use second::price::{Terms, PAYMENTS};
use second::table::*;

/// One change after which the table still passes check 9 (some are none at all).
pub fn benign(rng: &mut Rng, table: &mut Table) {
    let machine = rng.number(table.machines);
    match rng.below(9) {
        0 => change_job(rng, table),
        1 => change_pool(rng, table, machine),
        2 => change_held(rng, table, machine),
        3 if table.alive(machine) => {
            table.machine[usize::from(machine)].waits = rng.number(table.machines + 1);
        }
        4 => kill(rng, table),
        5 => tell(rng, table, machine),
        6 if table.entries > 0 => {
            let entry = rng.below(usize::from(table.entries));
            table.bonds[entry] = book::term(&inputs::term(rng)).expect("a term that passes");
        }
        7 if rng.chance(1, 3) => {
            let most = rng.pick(&[125, 126, 127, 128, 128, 128]);
            while table.in_flight < most {
                add_message(rng, table);
            }
        }
        _ => add_message(rng, table),
    }
}

/// A replica number from 1 to the largest that passes.
fn replica(rng: &mut Rng, table: &Table) -> u8 {
    1 + rng.number(1 + table.told[0].iter().sum::<u8>())
}

fn change_job(rng: &mut Rng, table: &mut Table) {
    let entry = rng.below(usize::from(table.entries));
    if entry >= usize::from(table.entries) {
        return;
    }
    let state = rng.pick(&[NOT_ADMITTED, OPEN, OPEN, PRICED]);
    let moving = rng.number(2);
    let (holder, thief) = (rng.number(table.machines), moving * rng.number(table.machines));
    let price = if state == PRICED { rng.next() } else { 0 };
    let replica = replica(rng, table);
    table.jobs[entry] = match state {
        NOT_ADMITTED => Job::NONE,
        _ => Job { state, replica, moving, holder, thief, price },
    };
    table.open_jobs = table.recount();
}

fn change_pool(rng: &mut Rng, table: &mut Table, machine: u8) {
    let entry = rng.below(usize::from(table.entries));
    if table.alive(machine) && entry < usize::from(table.entries) {
        table.pools[usize::from(machine)][entry] = replica(rng, table) - rng.number(2);
    }
}

/// Another reserved or running copy, or none.
fn change_held(rng: &mut Rng, table: &mut Table, machine: u8) {
    if !table.alive(machine) || table.entries == 0 {
        return;
    }
    let (job, replica) = (rng.number(table.entries), replica(rng, table));
    let thief = rng.number(table.machines);
    let changed = &mut table.machine[usize::from(machine)];
    match rng.below(4) {
        0 => changed.reserved = Held::NONE,
        1 => changed.running = Held::NONE,
        2 => changed.running = Held { job, replica, thief: 0 },
        _ => changed.reserved = Held { job, replica, thief },
    }
}

/// A machine is dead and has nothing; what was sent to it is gone.
fn kill(rng: &mut Rng, table: &mut Table) {
    let machine = rng.number(table.machines);
    if machine != 0 && rng.chance(1, 3) {
        silence(table, machine, true);
    }
}

/// Some machine was told of a dead one.
fn tell(rng: &mut Rng, table: &mut Table, machine: u8) {
    if let Some(dead) = rng.some(table.machines, |m| !table.alive(m)) {
        table.told[usize::from(machine)][usize::from(dead)] = 1;
    }
}

/// A message of any kind, from any machine, to a living one that may get it, sent last or first.
fn add_message(rng: &mut Rng, table: &mut Table) {
    let message = any_message(rng, table);
    if table.full() || !table.alive(message.to) || (carries_copy(message.kind) && table.entries == 0) {
        return;
    }
    table.send(message);
    if rng.chance(1, 2) {
        table.messages[..usize::from(table.in_flight)].rotate_right(1);
    }
    if matches!(message.kind, AUTH | DENIED | OBSOLETE) && rng.chance(2, 3) {
        reserve_for(rng, table, &message);
    }
}

fn carries_copy(kind: u8) -> bool {
    !matches!(kind, FISH | NOWORK)
}

fn any_message(rng: &mut Rng, table: &Table) -> Message {
    let kind = 1 + rng.number(9);
    let mut message = Message { kind, from: rng.number(table.machines), ..Message::NONE };
    if !matches!(kind, REQ | ACK | RESULT) {
        message.to = rng.number(table.machines);
    }
    if carries_copy(kind) {
        message.job = rng.number(table.entries);
        let current = table.jobs[usize::from(message.job)].replica;
        message.replica = if current != 0 && rng.chance(2, 3) { current } else { replica(rng, table) };
    }
    if matches!(kind, REQ | AUTH | DENIED | OBSOLETE) {
        message.thief = rng.number(table.machines);
    }
    if kind == RESULT {
        message.price = rng.next();
    }
    message
}

/// The receiver's reserved copy becomes the one that the message names, or one that differs in one part.
fn reserve_for(rng: &mut Rng, table: &mut Table, message: &Message) {
    let mut copy = Held { job: message.job, replica: message.replica, thief: message.thief };
    match rng.below(8) {
        0 => copy.job = rng.number(table.entries),
        1 => copy.replica = replica(rng, table),
        2 => copy.thief = rng.number(table.machines),
        _ => {}
    }
    table.machine[usize::from(message.to)].reserved = copy;
}

/// One change that breaks a condition of row 9 which a changed field alone seldom breaks, and no other.
pub fn targeted(rng: &mut Rng, table: &mut Table) {
    match rng.below(11) {
        0 => silence(table, 0, true),
        1 => silence(table, 1 + rng.number(table.machines - 1), false),
        2 => misdirect(rng, table),
        3 => overtake(rng, table),
        4 if table.entries > 0 => pass_an_end(rng, table),
        5 | 6 => change_payments(rng, table),
        7 | 8 => miscount(rng, table),
        9 => misname(rng, table),
        _ => {
            let (machine, of) = (rng.number(table.machines), rng.number(table.machines));
            table.told[usize::from(machine)][usize::from(of)] = 1;
        }
    }
}

/// A machine is dead; what was sent to it is dropped, or stays.
fn silence(table: &mut Table, machine: u8, dropped: bool) {
    table.machine[usize::from(machine)] = Machine::NONE;
    table.pools[usize::from(machine)] = [0; ENTRIES];
    if dropped {
        table.drop_messages(|message| message.to == machine);
    }
}

/// A message for the root goes to another living machine.
fn misdirect(rng: &mut Rng, table: &mut Table) {
    let for_root = |message: &Message| matches!(message.kind, REQ | ACK | RESULT);
    let slot = rng.some(table.in_flight, |slot| for_root(&table.messages[usize::from(slot)]));
    let machine = rng.some(table.machines, |machine| machine != 0 && table.alive(machine));
    if let (Some(slot), Some(machine)) = (slot, machine) {
        table.messages[usize::from(slot)].to = machine;
    }
}

/// A machine runs a job, or a message names a thief, that is one past the last.
fn misname(rng: &mut Rng, table: &mut Table) {
    let machine = rng.some(table.machines, |machine| table.alive(machine)).unwrap_or(0);
    let with_thief = |message: &Message| matches!(message.kind, REQ | AUTH | DENIED | OBSOLETE);
    match rng.some(table.in_flight, |slot| with_thief(&table.messages[usize::from(slot)])) {
        Some(slot) if rng.chance(1, 2) => table.messages[usize::from(slot)].thief = table.machines,
        _ => table.machine[usize::from(machine)].running = Held { job: table.entries, replica: 1, thief: 0 },
    }
}

/// Some bond's yield becomes the number next beyond an end of its range.
fn pass_an_end(rng: &mut Rng, table: &mut Table) {
    let ytm = rng.pick(&[(-0.5f64).next_down(), 1f64.next_up()]);
    let terms = &mut table.bonds[rng.below(usize::from(table.entries))].terms;
    *terms = match *terms {
        Terms::Zero { .. } => Terms::Zero { ytm },
        Terms::Fixed { coupon, .. } => Terms::Fixed { coupon, ytm },
    };
}

/// Some bond has no payments, or a number of them that no book has; or an unused entry has payments.
fn change_payments(rng: &mut Rng, table: &mut Table) {
    let entry = rng.below(ENTRIES);
    let used = rng.below(usize::from(table.entries));
    if entry >= usize::from(table.entries) {
        table.bonds[entry].payments = rng.pick(&PAYMENTS);
    } else if rng.chance(1, 4) {
        table.bonds[used].payments = 0;
    } else {
        table.bonds[used].payments = rng.pick(inputs::OTHER_BYTES);
    }
}

/// The kept number of open jobs becomes one too high, one too low or 255; or a job changes and the number stays.
fn miscount(rng: &mut Rng, table: &mut Table) {
    let kept = table.open_jobs;
    match rng.below(4) {
        0 => table.open_jobs = kept + 1,
        1 => table.open_jobs = kept.wrapping_sub(1),
        2 => table.open_jobs = 255,
        _ => {
            change_job(rng, table);
            table.open_jobs = kept;
        }
    }
}

/// Some replica number becomes one more than the largest that passes.
fn overtake(rng: &mut Rng, table: &mut Table) {
    let large = 2 + table.told[0].iter().sum::<u8>();
    let entry = rng.below(usize::from(table.entries));
    let slot = rng.below(usize::from(table.in_flight));
    let machine = rng.some(table.machines, |machine| table.alive(machine)).unwrap_or(0);
    let number = usize::from(machine);
    let place = match rng.below(5) {
        0 => &mut table.jobs[entry].replica,
        1 => &mut table.pools[number][entry],
        2 => &mut table.machine[number].reserved.replica,
        3 => &mut table.machine[number].running.replica,
        _ => &mut table.messages[slot].replica,
    };
    *place = large;
}

/// One field set to a value at or near the end of some range, to one more or less, or to any; or one byte
/// to any. Mostly a field that is in use. After a job's state the kept number of open jobs is mostly made right,
/// so that the state's own conditions decide. The table may pass check 9 after it or not.
pub fn harm(rng: &mut Rng, bytes: &mut [u8]) {
    if rng.chance(1, 12) {
        let at = rng.below(bytes.len());
        bytes[at] = rng.byte();
        return;
    }
    let used = rng.chance(4, 5);
    let field = fields::any(rng, bytes, used);
    match (field.width, field.name) {
        (1, name) => {
            bytes[field.at] = value(rng, bytes, field.at);
            if name == "state" && rng.chance(3, 4) {
                let states = bytes[JOBS_AT..MACHINES_AT].iter().step_by(JOB_BYTES);
                bytes[OPEN_JOBS_AT] = states.filter(|&&state| state == OPEN).count() as u8;
            }
        }
        (_, "price") => bytes[field.at + rng.below(8)] ^= 1 << rng.below(8),
        _ => bytes[field.at..field.at + 8].copy_from_slice(&inputs::float(rng).to_le_bytes()),
    }
}

fn value(rng: &mut Rng, bytes: &[u8], at: usize) -> u8 {
    let (machines, entries, old) = (bytes[0], bytes[1], bytes[at]);
    let told = bytes[TOLD_AT..TOLD_AT + MACHINES].iter().filter(|&&flag| flag == 1).count() as u8;
    let near = [machines, entries, told + 1, old, 0, 1, 2, 4, 9, 12, 16, 64, 128, 240];
    match rng.below(6) {
        0 => rng.byte(),
        1 => rng.pick(&near).wrapping_add(1),
        2 => rng.pick(&near).wrapping_sub(1),
        3 => rng.pick(&near[..4]).wrapping_add(rng.number(2)),
        4 => rng.pick(&[0, 1, 2]),
        _ => rng.pick(&near),
    }
}
