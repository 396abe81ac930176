//! Pages: book read, table opened, all events run, text written, by the proved library and by the second implementation, whose events
//! are measured without a page too. Processor time of the thread.

use crate::library::Library;
use crate::timing::{best_taken, Work};
use bench::Load;
use second::{events, page};
use std::hint::black_box;

fn proved<'a>(library: &'a Library, load: &'a Load) -> Box<Work<'a>> {
    let mut out = vec![0; page::LONGEST];
    let written = library.page(&load.book, &load.events, &mut out);
    assert!(page::page(&load.book, &load.events).as_bytes() == &out[..written], "the pages differ");
    Box::new(move || {
        black_box(library.page(&load.book, &load.events, black_box(&mut out)));
    })
}

fn rust_events(load: &Load) -> Box<Work<'_>> {
    let fresh = bench::fresh(&load.book);
    Box::new(move || {
        let mut table = fresh.clone();
        let numbers = load.events.chunks(3).map(|event| events::answer(&mut table, event) as u32);
        black_box(numbers.sum::<u32>());
        black_box(&table);
    })
}

fn rust_page(load: &Load) -> Box<Work<'_>> {
    Box::new(move || {
        black_box(page::page(black_box(&load.book), &load.events));
    })
}

fn row(load: &Load, library: &Library, other: Option<&Library>) {
    let count = load.count();
    let mut works = vec![proved(library, load), rust_events(load), rust_page(load)];
    works.extend(other.map(|other| proved(other, load)));
    let times = best_taken(2_000_000 / count, count, &mut works);
    let (here, events, page) = (times[0], times[1], times[2]);
    print!("| {} | {} | {count} | {:.1} % |", load.name, load.book[0], load.refused_share());
    print!(" {here:.1} | {events:.1} | {page:.1} | {:.2} | {:.2} |", here / events, here / page);
    for other in &times[3..] {
        print!(" {other:.1} | {:.2} |", here / other);
    }
    println!(" {:.0} |", 1e9 / here);
}

pub fn table(library: &Library, other: Option<&Library>) {
    let beside = if other.is_some() { " other build, page | page / other build |" } else { "" };
    print!("| load | machines | events | refused | page | Rust, events | Rust, page | page / Rust, events |");
    println!(" page / Rust, page |{beside} events a second, page |");
    println!("|{}", "---|".repeat(if other.is_some() { 12 } else { 10 }));
    for (machines, count) in [(16, 20_000), (16, 5_000), (16, 1_000), (8, 20_000), (2, 20_000)] {
        row(&Load::accepted(machines, count), library, other);
    }
    row(&Load::refused(16, 20_000), library, other);
}
