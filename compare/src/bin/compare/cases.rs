//! The cases: each gives one random input to both implementations and reports where they differ.

use crate::coverage::{Coverage, OTHER_LENGTHS};
use crate::damage;
use crate::driver::{Aim, Driver};
use crate::fields;
use crate::inputs::{self, Draft};
use crate::joins;
use crate::library::{Library, PAGE_BUFFER};
use crate::rng::Rng;
use second::book::{self, Book};
use second::price::{Bond, PAYMENTS};
use second::table::{self, Message, Table, BYTES, ENTRIES, OPEN, PRICED, RESULT};
use second::{check, events, isin, page, price};

/// How much was compared (events, tables or inputs), or what differs.
pub type Outcome = Result<u64, String>;

/// What a case works with.
pub struct Trial {
    pub library: Library,
    pub coverage: Coverage,
}

pub fn same<T: PartialEq + std::fmt::Debug>(what: &str, library: T, second: T) -> Result<(), String> {
    if library == second {
        Ok(())
    } else {
        Err(format!("{what}: the library gives {library:?}, the second implementation {second:?}"))
    }
}

fn same_bytes(what: &str, library: &[u8], second: &[u8]) -> Result<(), String> {
    match (0..library.len()).find(|&at| library[at] != second[at]) {
        None => Ok(()),
        Some(at) => {
            let name = fields::name(at);
            same(&format!("{what}: byte {at} ({name})"), library[at], second[at])
        }
    }
}

pub fn identifier(trial: &mut Trial, rng: &mut Rng) -> Outcome {
    let mut identifier = inputs::identifier(rng);
    match rng.below(8) {
        0 | 1 => {}
        2 => identifier = (0..rng.below(40)).map(|_| rng.byte()).collect(),
        _ => inputs::damage_identifier(rng, &mut identifier),
    }
    let number = verdict(trial, &identifier)?;
    trial.coverage.identifiers[usize::from(number)] += 1;
    Ok(1)
}

/// The number of an identifier, on which both agree.
fn verdict(trial: &mut Trial, identifier: &[u8]) -> Result<u8, String> {
    let number = isin::verdict(identifier);
    same(&format!("identifier {identifier:02X?}"), trial.library.identifier(identifier), number)?;
    Ok(number)
}

/// Each byte at each place of an identifier, and where the form allows it also with the check digit that fits.
pub fn characters(trial: &mut Trial, rng: &mut Rng) -> Outcome {
    let passing = inputs::identifier(rng);
    let mut counts = [0; 6];
    for place in 0..passing.len() {
        for byte in 0..=u8::MAX {
            let mut identifier = passing.clone();
            identifier[place] = byte;
            let number = verdict(trial, &identifier)?;
            counts[usize::from(number)] += 1;
            if number == 5 {
                identifier[11] = isin::check_character(&identifier[..11]);
                counts[usize::from(verdict(trial, &identifier)?)] += 1;
            }
        }
    }
    for (total, count) in trial.coverage.characters.iter_mut().zip(counts) {
        *total += count;
    }
    Ok(counts.iter().sum())
}

pub fn term(trial: &mut Trial, rng: &mut Rng) -> Outcome {
    let mut term = inputs::term(rng);
    (0..rng.pick(&[0, 1, 1, 1, 2])).for_each(|_| inputs::damage_term(rng, &mut term));
    let before = rng.next();
    let answer = match book::term(&term) {
        Some(bond) => (0, bond.price()),
        None => (7, before),
    };
    trial.coverage.terms[usize::from(answer.0)] += 1;
    match book::term(&term) {
        Some(bond) => {
            trial.coverage.count_below_zero("term accepted", (bond.ytm() < 0.0).into());
            trial.coverage.count_below_zero("term accepted at -0.5", (bond.ytm() == -0.5).into());
            trial.coverage.count_payments("term accepted", term[2]);
        }
        None => count_refused(&mut trial.coverage, &term),
    }
    same(&format!("term {term:02X?}"), trial.library.term(&term, before), answer)?;
    Ok(1)
}

/// A term that is refused for the yield next below -0.5 alone, or for its third byte alone.
fn count_refused(coverage: &mut Coverage, term: &[u8]) {
    if term.ends_with(&(-0.5f64).next_down().to_le_bytes()) {
        let at_end = [&term[..term.len() - 8], &(-0.5f64).to_le_bytes()].concat();
        coverage.count_below_zero("term refused next below -0.5", book::term(&at_end).is_some().into());
    }
    if let [kind, periods, byte, rates @ ..] = term {
        if book::term(&[&[*kind, *periods, 0][..], rates].concat()).is_some() {
            coverage.count_payments("term refused for it alone", *byte);
        }
    }
}

pub fn price(trial: &mut Trial, rng: &mut Rng) -> Outcome {
    let periods = rng.byte();
    let payments = if rng.chance(3, 4) { rng.pick(inputs::PAYMENTS) } else { rng.byte() };
    let (coupon, ytm) = (inputs::float(rng), inputs::float(rng));
    let what = format!("price of {periods} periods, {payments} a year, coupon {coupon:?}, yield {ytm:?}");
    let library = (
        trial.library.price_zero(periods, payments, ytm),
        trial.library.price_fixed(periods, payments, coupon, ytm),
    );
    let second =
        (price::price_zero(periods, payments, ytm), price::price_fixed(periods, payments, coupon, ytm));
    trial.coverage.prices += 2;
    trial.coverage.count_below_zero("price", 2 * usize::from((-0.5..0.0).contains(&ytm)));
    trial.coverage.count_payments("price", payments);
    same(&what, library, second)?;
    Ok(1)
}

/// A book, its number by `rakhvide_book`, the table opened from it, and its page with few events.
pub fn book(trial: &mut Trial, rng: &mut Rng) -> Outcome {
    let (machines, entries) = inputs::sizes(rng);
    let mut draft = Draft::new(rng, machines, entries);
    (0..rng.pick(&[0, 1, 1, 2, 3])).for_each(|_| draft.damage(rng));
    let mut bytes = draft.bytes();
    match rng.below(12) {
        0 => bytes.truncate(rng.below(bytes.len() + 1)),
        1 => bytes.truncate(rng.below(6)),
        2 => bytes.extend([0; 31].iter().take(1 + rng.below(31))),
        _ => {}
    }
    let number = Book::read(&bytes).err().unwrap_or(0);
    trial.coverage.books[usize::from(number)] += 1;
    count_book(&mut trial.coverage, &bytes);
    same(&format!("book {bytes:02X?}"), trial.library.book(&bytes), number)?;
    opened(trial, rng, &bytes)?;
    let events: Vec<u8> = (0..rng.below(12)).map(|_| rng.number(9)).collect();
    same_page(trial, rng, &bytes, &events)?;
    Ok(1)
}

/// An accepted book's yields and third bytes; the third bytes that a book is refused for and nothing else.
fn count_book(coverage: &mut Coverage, bytes: &[u8]) {
    match Book::read(bytes) {
        Ok(book) => {
            let low = (0..book.entries).any(|entry| book.bond(entry).ytm() < 0.0);
            coverage.count_below_zero("book accepted", low.into());
            for entry in 0..book.entries {
                coverage.count_payments("entry of a book accepted", book.term(entry)[2]);
            }
        }
        Err(7) => {
            let first = 4 + book::IDENTIFIER * usize::from(bytes[2]) + 2;
            let third_bytes = (first..bytes.len()).step_by(book::TERM);
            let bad: Vec<usize> = third_bytes.filter(|&at| !inputs::PAYMENTS.contains(&bytes[at])).collect();
            let mut mended = bytes.to_vec();
            bad.iter().for_each(|&at| mended[at] = 0);
            let bad = bad.iter().filter(|_| Book::read(&mended).is_ok());
            bad.for_each(|&at| coverage.count_payments("book refused for it alone", bytes[at]));
        }
        Err(_) => {}
    }
}

/// The table opened from a book, in a buffer that is mostly of the right length.
pub fn opened(trial: &mut Trial, rng: &mut Rng, book: &[u8]) -> Result<Vec<u8>, String> {
    let length = if rng.chance(1, 20) { rng.pick(&OTHER_LENGTHS) } else { BYTES };
    let before: Vec<u8> = (0..length).map(|at| (at % 251) as u8).collect();
    let (number, after) = match Book::read(book) {
        Err(number) => (number, before.clone()),
        Ok(_) if length != BYTES => (9, before.clone()),
        Ok(book) => (0, Table::open(&book).to_bytes().to_vec()),
    };
    let mut table = before;
    trial.coverage.opened[usize::from(number)] += 1;
    same("open", trial.library.open(book, &mut table), number)?;
    same_bytes("open", &table, &after)?;
    same_open_jobs(trial, &table)?;
    Ok(table)
}

/// The number of open jobs that bytes of any length and content answer.
fn same_open_jobs(trial: &mut Trial, snapshot: &[u8]) -> Result<u8, String> {
    let answer = trial.library.open_jobs(snapshot);
    same("open jobs", answer, table::open_jobs(snapshot))?;
    Ok(answer)
}

/// The same of a table that passes check 9, where it "equals a full recount" (document 02, 2.4).
fn same_recount(trial: &mut Trial, table: &Table, snapshot: &[u8]) -> Result<(), String> {
    let answer = same_open_jobs(trial, snapshot)?;
    same("open jobs, recounted", answer, table.recount())
}

/// The page, its length and the whole buffer; now and then a buffer that is too short.
fn same_page(trial: &mut Trial, rng: &mut Rng, book: &[u8], events: &[u8]) -> Result<(), String> {
    let short = rng.chance(1, 20);
    let buffer =
        vec![0xEE; if short { rng.pick(&[0, 1, PAGE_BUFFER - 1]) } else { PAGE_BUFFER + rng.below(3) }];
    let text = if short { String::new() } else { page::page(book, events) };
    let (written, length, after) = trial.library.page(book, events, &buffer);
    same("page written", written, !short)?;
    same("page length", length, text.len())?;
    if let Some(at) = (0..text.len()).find(|&at| after[at] != text.as_bytes()[at]) {
        let line = text[..at].matches('\n').count();
        let library = String::from_utf8_lossy(&after[..length]).into_owned();
        return same(
            "page line",
            library.lines().nth(line).unwrap_or(""),
            text.lines().nth(line).unwrap_or(""),
        );
    }
    same("page buffer past the page", after[length..].iter().all(|&byte| byte == 0xEE), true)?;
    if !short {
        trial.coverage.count_open_jobs("last line of a page", last_line(&text));
    }
    trial.coverage.pages += 1;
    trial.coverage.longest_page = trial.coverage.longest_page.max(text.len());
    Ok(())
}

/// How a page ends, in the words of `OPEN_JOBS`.
fn last_line(text: &str) -> &'static str {
    match text.lines().last().and_then(|line| line.strip_prefix("open ")) {
        None => "book refused",
        Some("0") => "open 0",
        Some("64") => "open 64",
        Some(number) if number.len() == 1 => "open, one digit",
        Some(_) => "open, two digits",
    }
}

/// A run: a book that passes, its table, events chosen from the table's state, and at the end two pages: of the
/// events until most jobs are open, and of all.
pub fn run(trial: &mut Trial, rng: &mut Rng) -> Outcome {
    let (bytes, aim) = book_of_run(rng);
    let mut table = Table::open(&Book::read(&bytes).expect("a book that passes"));
    let mut snapshot = vec![0; BYTES];
    same("open", trial.library.open(&bytes, &mut snapshot), 0)?;
    same_bytes("open", &snapshot, &table.to_bytes())?;
    same_recount(trial, &table, &snapshot)?;
    let mut driver = Driver::new(rng, aim, &table);
    let mut joined = joins::Run::new(&table);
    let mut list = Vec::new();
    let (mut length, mut open, mut until) = (0, 0, 0);
    while !ends(rng, aim, length, &table) {
        let event = driver.next(rng, &table);
        length += 1;
        list.extend(event.get(..3).unwrap_or(&[]));
        let before = table.clone();
        let number = step(trial, "event of a run", &mut table, &mut snapshot, &event)
            .map_err(|text| format!("event {length} {text}"))?;
        trial.coverage.answers.count(&event, number);
        joined.event(&mut trial.coverage.joins, &before, &event, number);
        trial.coverage.table(&table);
        if table.open_jobs > open {
            (open, until) = (table.open_jobs, list.len());
        }
    }
    for (bond, _) in table.bonds.iter().zip(&table.jobs).filter(|(_, job)| job.state == PRICED) {
        trial.coverage.count_below_zero("job priced in a run", (bond.ytm() < 0.0).into());
        trial.coverage.count_payments("job priced in a run", bond.payments);
    }
    same_page(trial, rng, &bytes, &list[..until])?;
    extend_list(rng, &mut list, &table);
    same_page(trial, rng, &bytes, &list)?;
    trial.coverage.runs += 1;
    joined.end(&mut trial.coverage.joins);
    Ok(length)
}

/// Whether a run ends here: soon where the root alone is alive and no others are to join, and not before a full
/// channel where this is the aim.
fn ends(rng: &mut Rng, aim: Aim, length: u64, table: &Table) -> bool {
    let root_alone = aim != Aim::Joins && (1..table.machines).all(|machine| !table.alive(machine));
    match aim {
        Aim::Flood => length >= 1400,
        _ => length >= 1000 || rng.chance(1, if root_alone { 20 } else { 400 }),
    }
}

fn book_of_run(rng: &mut Rng) -> (Vec<u8>, Aim) {
    let aim = match rng.below(25) {
        0 => Aim::Flood,
        1..=5 => Aim::Deaths,
        6..=10 => Aim::Joins,
        11..=13 => Aim::Noise,
        _ => Aim::Mixed,
    };
    let (machines, entries) = match (aim, inputs::sizes(rng)) {
        (Aim::Flood, (machines, _)) => (machines.max(4), 64),
        (Aim::Deaths, (_, entries)) => (16 - rng.below(9) as u16, entries.max(1)),
        (Aim::Joins, (_, entries)) => (2 + rng.below(8) as u16, entries.max(1)),
        (_, sizes) => sizes,
    };
    (Draft::new(rng, machines, entries).bytes(), aim)
}

/// A page's list may end with a broken event; some lists are longer than what is read.
fn extend_list(rng: &mut Rng, list: &mut Vec<u8>, table: &Table) {
    if rng.chance(1, 50) {
        while list.len() < page::EVENT_BYTES - 3 + 3 * rng.below(8) {
            list.extend([1 + rng.number(8), rng.number(table.machines + 1), rng.number(table.machines)]);
        }
    }
    let end: [u8; 2] = [1 + rng.number(8), rng.number(2)];
    list.extend(&end[..rng.below(3)]);
}

/// Which of the conditions of `STEAL` hold for a steal whose numbers are those of machines.
fn steal_conditions(table: &Table, event: &[u8]) -> Option<[bool; 5]> {
    match *event {
        [2, a, b, ..] if a.max(b) < table.machines => {
            let waits = table.machine[usize::from(a)].waits != 0;
            Some([!table.alive(a), a == b, waits, table.was_told(a, b), table.full()])
        }
        _ => None,
    }
}

/// What of `FULL` an event on a full table meets.
fn met_full(table: &Table, event: &[u8]) -> Option<&'static str> {
    let machine = |number: u8| &table.machine[usize::from(number)];
    let untold = |a: u8, b: u8| a.max(b) < table.machines && table.alive(a) && !table.was_told(a, b);
    match *event {
        [2, a, b, ..] if untold(a, b) && a != b && machine(a).waits == 0 => {
            Some(if table.alive(b) { "steal from the living" } else { "steal from the dead" })
        }
        [7, a, b, ..] if untold(a, b) && !table.alive(b) && machine(a).waits == b + 1 => {
            Some("notice that ends a wait")
        }
        [5, a, 0, ..] if a < table.machines && machine(a).running.is_some() => Some("done"),
        _ => None,
    }
}

/// The message that an event delivers.
pub fn oldest(table: &Table, event: &[u8]) -> Option<Message> {
    match *event {
        [3, a, b, ..] => table.in_flight().iter().find(|m| m.from == a && m.to == b).copied(),
        _ => None,
    }
}

/// What of `OPEN_JOBS` an event meets where it is accepted.
fn met_open_jobs(table: &Table, event: &[u8]) -> Option<&'static str> {
    match *event {
        [1, ..] => Some("Admit"),
        [7, 0, b, ..] => {
            let recovered = table.jobs.iter().any(|job| job.state == OPEN && job.concerns(b));
            recovered.then_some("Notice, recovered")
        }
        _ => {
            let result = oldest(table, event).filter(|message| message.kind == RESULT)?;
            Some(match table.jobs[usize::from(result.job)].state {
                OPEN => "RESULT, open",
                PRICED => "RESULT, priced",
                _ => "RESULT, not admitted",
            })
        }
    }
}

/// One event on both; number, all bytes and the number of open jobs afterwards are compared.
fn step(
    trial: &mut Trial,
    place: &'static str,
    table: &mut Table,
    snapshot: &mut Vec<u8>,
    event: &[u8],
) -> Result<u8, String> {
    let oldest = oldest(table, event);
    let before = table.clone();
    let held = steal_conditions(table, event);
    let met = met_full(table, event).filter(|_| table.full());
    let met_open = met_open_jobs(table, event);
    let number = events::step(table, event);
    let library = trial.library.step(snapshot, event);
    same(&format!("{event:?}"), library, number)?;
    same_bytes(&format!("{event:?} answered {number}"), snapshot, &table.to_bytes())?;
    same_recount(trial, table, snapshot).map_err(|text| format!("{event:?} answered {number}: {text}"))?;
    if let (Some(name), 0) = (met_open, number) {
        trial.coverage.count_open_jobs(place, name);
    }
    if let (Some(message), 0) = (oldest, number) {
        trial.coverage.delivered(&message, &before, table);
    }
    trial.coverage.joins.answered(place, &before, event, number);
    if let Some(held) = held {
        trial.coverage.stolen(held);
    }
    if let Some(name) = met {
        trial.coverage.count_full(name);
    }
    Ok(number)
}

/// A table that some run reaches, by the second implementation alone.
pub fn reached(rng: &mut Rng) -> Table {
    let (bytes, aim) = book_of_run(rng);
    let mut table = Table::open(&Book::read(&bytes).expect("a book that passes"));
    let mut driver = Driver::new(rng, aim, &table);
    let length = if aim == Aim::Flood { 1250 } else { rng.below(500) };
    for _ in 0..length {
        let event = driver.next(rng, &table);
        events::answer(&mut table, &event);
    }
    table
}

/// Tables made from one that a run reaches: changed, given to check and then to some events.
pub fn damaged(trial: &mut Trial, rng: &mut Rng) -> Outcome {
    let table = reached(rng);
    let tables = 50;
    for number in 0..tables {
        let mut changed = table.clone();
        (0..rng.pick(&[0, 1, 3, 8])).for_each(|_| damage::benign(rng, &mut changed));
        let event = event_for(rng, &changed);
        if rng.chance(1, 12) {
            damage::targeted(rng, &mut changed);
        }
        let mut snapshot = changed.to_bytes().to_vec();
        if rng.chance(3, 5) {
            (0..rng.pick(&[1, 1, 1, 2])).for_each(|_| damage::harm(rng, &mut snapshot));
        }
        if rng.chance(1, 40) {
            snapshot.resize(rng.pick(&OTHER_LENGTHS), 0);
        }
        one_damaged(trial, rng, snapshot, &event).map_err(|text| format!("damaged table {number}: {text}"))?;
    }
    Ok(tables)
}

/// The oldest message of all is delivered, or some other event that looks acceptable.
fn event_for(rng: &mut Rng, table: &Table) -> Vec<u8> {
    match table.in_flight().first() {
        Some(message) if rng.chance(1, 3) => vec![3, message.from, message.to],
        _ => Driver::plain().next(rng, table),
    }
}

fn one_damaged(trial: &mut Trial, rng: &mut Rng, mut snapshot: Vec<u8>, event: &[u8]) -> Result<(), String> {
    let read = Table::from_bytes(&snapshot);
    let fault = match &read {
        None => Some(None),
        Some(table) => check::check(table).err().map(Some),
    };
    let number = if fault.is_some() { 9 } else { 0 };
    same(&format!("check ({fault:?})"), trial.library.check(&snapshot), number)?;
    same_open_jobs(trial, &snapshot)?;
    if let Some(table) = &read {
        count_checked_yield(trial, table, fault.flatten());
        count_checked_payments(trial, table, fault.flatten());
    }
    match (fault, read) {
        (None, Some(mut table)) => {
            trial.coverage.damaged_passed += 1;
            some_steps(trial, rng, &mut table, &mut snapshot, event)
        }
        (fault, read) => {
            match (fault.flatten(), &read) {
                (Some(fault), Some(table)) => trial.coverage.failed(fault, table),
                _ => trial.coverage.no_table(snapshot.len()),
            }
            let before = snapshot.clone();
            let number = read.map_or(9, |mut table| events::step(&mut table, event));
            trial.coverage.damaged_answers.count(event, number);
            trial.coverage.joins.refused_nine(event, fault.flatten());
            same(&format!("{event:?}"), trial.library.step(&mut snapshot, event), number)?;
            same_bytes(&format!("{event:?} answered 9"), &snapshot, &before)
        }
    }
}

/// A table that passes check 9 with a yield below 0, or that fails it by a term of the yield next below -0.5.
fn count_checked_yield(trial: &mut Trial, table: &Table, fault: Option<check::Fault>) {
    let bonds = &table.bonds[..usize::from(table.entries).min(ENTRIES)];
    let any = |test: fn(f64) -> bool| usize::from(bonds.iter().any(|bond| test(bond.ytm())));
    match fault {
        None => trial.coverage.count_below_zero("table passed", any(|ytm| ytm < 0.0)),
        Some(check::Fault::TermOutOfRange) => {
            let low = any(|ytm| ytm == (-0.5f64).next_down());
            trial.coverage.count_below_zero("table refused next below -0.5", low);
        }
        _ => {}
    }
}

/// The payments of a table that passes check 9, and those that it fails it for and for nothing else.
fn count_checked_payments(trial: &mut Trial, table: &Table, fault: Option<check::Fault>) {
    let coverage = &mut trial.coverage;
    let entries = usize::from(table.entries).min(ENTRIES);
    match fault {
        None => table.bonds[..entries]
            .iter()
            .for_each(|bond| coverage.count_payments("entry of a table passed", bond.payments)),
        Some(check::Fault::TermOutOfRange) => {
            let bad = |bond: &Bond| !PAYMENTS.contains(&bond.payments);
            count_mended(coverage, table, 0..entries, bad, 2, "table refused for it alone");
        }
        Some(check::Fault::UnusedTerm) => {
            let bad = |bond: &Bond| bond.payments != 0;
            count_mended(coverage, table, entries..ENTRIES, bad, 0, "unused entry refused for it");
        }
        _ => {}
    }
}

/// The bad payments of some entries, where the table passes with others in their place.
fn count_mended(
    coverage: &mut Coverage,
    table: &Table,
    entries: std::ops::Range<usize>,
    bad: fn(&Bond) -> bool,
    good: u8,
    place: &'static str,
) {
    let mut mended = table.clone();
    mended.bonds[entries.clone()].iter_mut().filter(|bond| bad(bond)).for_each(|bond| bond.payments = good);
    if check::check(&mended).is_ok() {
        let found = table.bonds[entries].iter().filter(|bond| bad(bond));
        found.for_each(|bond| coverage.count_payments(place, bond.payments));
    }
}

/// The event, and some more that the table accepts.
fn some_steps(
    trial: &mut Trial,
    rng: &mut Rng,
    table: &mut Table,
    snapshot: &mut Vec<u8>,
    event: &[u8],
) -> Result<(), String> {
    let mut event = event.to_vec();
    for _ in 0..1 + rng.below(8) {
        let number = step(trial, "event on a damaged table", table, snapshot, &event)?;
        trial.coverage.damaged_answers.count(&event, number);
        event = event_for(rng, table);
    }
    Ok(())
}
