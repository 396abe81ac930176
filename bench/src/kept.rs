//! The kept table: a check of a snapshot and a step on it by the proved library. Beside it the second implementation: check 9, alone and before
//! each event, on its own table in place; and the same with the snapshot read before and written after, as the library does. Processor time of
//! the thread.

use crate::library::{Library, Snapshot};
use crate::timing::{best_taken, Work};
use bench::Load;
use second::{check::check, events, table::Table};
use std::hint::black_box;

const ROUNDS: usize = 40;

/// The table after all events by the second implementation. Stops where a number of the library, or its snapshot at the end, differs.
fn last(library: &Library, load: &Load) -> Table {
    let mut table = bench::fresh(&load.book);
    let mut snapshot = library.open(&load.book);
    for event in load.events.chunks(3) {
        assert_eq!(library.step(&mut snapshot, event), events::step(&mut table, event), "{event:?}");
    }
    assert!(table.to_bytes() == snapshot, "the snapshots differ");
    assert_eq!((library.check(&snapshot), check(&table)), (0, Ok(())));
    table
}

fn checks<'a>(library: &'a Library, table: Snapshot, count: usize) -> Box<Work<'a>> {
    Box::new(move || {
        black_box((0..count).map(|_| library.check(black_box(&table)) as u32).sum::<u32>());
    })
}

fn steps<'a>(library: &'a Library, load: &'a Load) -> Box<Work<'a>> {
    let fresh = library.open(&load.book);
    Box::new(move || {
        let mut table = fresh;
        black_box(load.events.chunks(3).map(|event| library.step(&mut table, event) as u32).sum::<u32>());
        black_box(&table);
    })
}

fn rust_checks<'a>(table: Table, count: usize) -> Box<Work<'a>> {
    Box::new(move || {
        black_box((0..count).filter(|_| check(black_box(&table)).is_ok()).count());
    })
}

fn rust_steps(load: &Load) -> Box<Work<'_>> {
    let fresh = bench::fresh(&load.book);
    Box::new(move || {
        let mut table = fresh.clone();
        black_box(load.events.chunks(3).map(|event| events::step(&mut table, event) as u32).sum::<u32>());
        black_box(&table);
    })
}

fn rust_kept_checks<'a>(bytes: Snapshot, count: usize) -> Box<Work<'a>> {
    Box::new(move || {
        let passes = || Table::from_bytes(black_box(&bytes)).is_some_and(|table| check(&table).is_ok());
        black_box((0..count).filter(|_| passes()).count());
    })
}

fn rust_kept_steps(load: &Load) -> Box<Work<'_>> {
    let fresh = bench::fresh(&load.book).to_bytes();
    Box::new(move || {
        let mut bytes = fresh;
        for event in load.events.chunks(3) {
            let mut table = Table::from_bytes(black_box(&bytes)).expect("a snapshot");
            if events::step(&mut table, event) == 0 {
                bytes = table.to_bytes();
            }
        }
        black_box(&bytes);
    })
}

fn row(load: &Load, library: &Library, other: Option<&Library>) {
    let count = load.count();
    let table = last(library, load);
    let bytes = table.to_bytes();
    let mut works = vec![checks(library, bytes, count), steps(library, load)];
    works.extend([
        rust_checks(table, count),
        rust_steps(load),
        rust_kept_checks(bytes, count),
        rust_kept_steps(load),
    ]);
    if let Some(other) = other {
        last(other, load);
        works.extend([checks(other, bytes, count), steps(other, load)]);
    }
    let times = best_taken(ROUNDS, count, &mut works);
    print!("| {} | {} |", load.name, load.book[0]);
    print!(" {:.0} | {:.0} |", times[0], times[1]);
    for pair in times[2..6].chunks(2) {
        print!(" {:.0} | {:.0} | {:.2} | {:.2} |", pair[0], pair[1], times[0] / pair[0], times[1] / pair[1]);
    }
    for pair in times[6..].chunks(2) {
        print!(" {:.0} | {:.0} |", pair[0], pair[1]);
        print!(" {:.2} | {:.2} |", times[0] / pair[0], times[1] / pair[1]);
    }
    println!();
}

pub fn table(library: &Library, other: Option<&Library>) {
    print!("| load | machines | check | step | Rust in place, check 9 | and event | check / that | step / that |");
    print!(" Rust on bytes, check | step | check / that | step / that |");
    if other.is_some() {
        print!(" other build, check | other build, step | check / other build | step / other build |");
    }
    println!("\n|{}", "---|".repeat(if other.is_some() { 16 } else { 12 }));
    for machines in [16, 8, 2] {
        row(&Load::accepted(machines, 20_000), library, other);
    }
    row(&Load::refused(16, 20_000), library, other);
}
