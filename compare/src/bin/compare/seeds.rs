//! Inputs that the fuzzer starts from, in the form that `fuzz/src/lib.rs` reads.

use crate::cases;
use crate::driver::{Aim, Driver};
use crate::inputs::{self, Draft};
use crate::rng::Rng;
use second::book::Book;
use second::events;
use second::table::Table;
use std::path::Path;

/// Writes some inputs of each kind to a folder.
pub fn write(folder: &Path) -> std::io::Result<()> {
    for index in 0..40 {
        let rng = &mut Rng::of_case(1, 100, index);
        let inputs = [
            inputs::identifier(rng),
            inputs::term(rng),
            periods_payments_rates(rng),
            book_and_events(rng),
            book_and_events(rng),
            cases::reached(rng).to_bytes().to_vec(),
            entry_and_buffer(rng),
        ];
        for (kind, input) in inputs.iter().enumerate() {
            std::fs::write(
                folder.join(format!("seed-{kind}-{index}")),
                [&[kind as u8], &input[..]].concat(),
            )?;
        }
    }
    Ok(())
}

fn periods_payments_rates(rng: &mut Rng) -> Vec<u8> {
    let first = [rng.byte(), rng.pick(inputs::PAYMENTS)];
    [&first[..], &inputs::float(rng).to_le_bytes(), &inputs::float(rng).to_le_bytes()].concat()
}

/// A small book after its length, and a run.
fn book_and_events(rng: &mut Rng) -> Vec<u8> {
    let (machines, entries) = (2 + rng.number(4), rng.number(4));
    let book = Draft::new(rng, machines.into(), entries.into()).bytes();
    let mut input = [&(book.len() as u16).to_le_bytes()[..], &book].concat();
    let mut table = Table::open(&Book::read(&book).expect("a book that passes"));
    let aim = rng.pick(&[Aim::Mixed, Aim::Deaths, Aim::Joins]);
    let mut driver = Driver::new(rng, aim, &table);
    for _ in 0..rng.below(150) {
        let event = driver.next(rng, &table);
        if event.len() == 3 {
            events::answer(&mut table, &event);
            input.extend(event);
        }
    }
    input
}

/// A count, an identifier and terms, each after its length, and a buffer with a small book.
fn entry_and_buffer(rng: &mut Rng) -> Vec<u8> {
    let (machines, entries) = (2 + rng.number(4), rng.number(5));
    let book = Draft::new(rng, machines.into(), entries.into()).bytes();
    let (identifier, terms) = (inputs::identifier(rng), inputs::term(rng));
    let lengths = [identifier.len() as u8, terms.len() as u8];
    let room = vec![rng.byte(); 30 + rng.below(4)];
    [&(book.len() as u16).to_le_bytes()[..], &lengths, &identifier, &terms, &book, &room].concat()
}
