//! Cases of the writer: an entry added to a random book, and random books built from their empty ones.

use crate::cases::{opened, same, Outcome, Trial};
use crate::coverage::REFUSED_BOOKS;
use crate::inputs::{self, Draft};
use crate::rng::Rng;
use second::book::{self, Book, ENTRY, IDENTIFIER, TERM};
use second::isin;
use second::table::ENTRIES;

/// Counts above this one are called near the largest.
const NEAR_LARGEST: usize = usize::MAX - 4096;

/// What the writer is given.
struct Call {
    buffer: Vec<u8>,
    count: usize,
    identifier: Vec<u8>,
    terms: Vec<u8>,
}

impl Call {
    /// A third of the books are damaged, many of the entries, and some counts are not the book's.
    fn new(rng: &mut Rng) -> Call {
        let (machines, entries) = inputs::sizes(rng);
        let mut draft = Draft::new(rng, machines, entries);
        let identifier = identifier(rng, &draft.identifiers);
        let terms = terms(rng);
        if rng.chance(1, 3) {
            (0..rng.pick(&[1, 1, 2])).for_each(|_| draft.damage(rng));
        }
        let mut buffer = draft.bytes();
        match rng.below(40) {
            0 => buffer.truncate(rng.below(6)),
            1 => buffer.truncate(rng.below(buffer.len() + 1)),
            _ => {}
        }
        let book = buffer.len();
        let any = rng.below(61);
        let room = rng.pick(&[ENTRY - 1, ENTRY, any, ENTRY + any / 2, 2 * ENTRY]);
        buffer.extend((0..room).map(|_| rng.byte()));
        let count = stated_count(rng, book, buffer.len());
        Call { buffer, count, identifier, terms }
    }

    /// The book that is stated, or its number; none where the count is past the end.
    fn book(&self) -> Option<Result<Book<'_>, u8>> {
        self.buffer.get(..self.count).map(Book::read)
    }
}

/// That of the book, or another one: less, past the end, near the largest.
fn stated_count(rng: &mut Rng, book: usize, buffer: usize) -> usize {
    match rng.below(16) {
        0 => rng.below(buffer + 1),
        1 => buffer + 1 + rng.below(60),
        2 => usize::MAX - rng.below(2100),
        3 => rng.pick(&[
            book + 1,
            buffer,
            buffer + 1,
            book + ENTRY,
            usize::MAX / 2 + 1,
            usize::MAX - ENTRY + 1,
        ]),
        _ => book,
    }
}

/// A new one, one that is held, one that differs from it in one character and the check digit, or a damaged one.
fn identifier(rng: &mut Rng, held: &[Vec<u8>]) -> Vec<u8> {
    let mut identifier = inputs::identifier(rng);
    match (rng.below(12), held) {
        (0 | 1, [first, .., last]) => {
            let any = rng.below(held.len());
            [first, &held[any], last][rng.below(3)].clone()
        }
        (2, [_, ..]) => {
            let mut near = held[rng.below(held.len())].clone();
            near[2 + rng.below(9)] = b'0' + rng.number(10);
            near[11] = isin::check_character(&near[..11]);
            near
        }
        (3 | 4, _) => {
            inputs::damage_identifier(rng, &mut identifier);
            identifier
        }
        (5, _) => {
            let any = rng.below(64);
            identifier.resize(rng.pick(&[0, 11, 13, any]), b'0');
            identifier
        }
        _ => identifier,
    }
}

fn terms(rng: &mut Rng) -> Vec<u8> {
    let mut terms = inputs::term(rng);
    match rng.below(8) {
        0 | 1 => inputs::damage_term(rng, &mut terms),
        2 => {
            let any = rng.below(64);
            terms.resize(rng.pick(&[0, 18, 20, any]), 0);
        }
        _ => {}
    }
    terms
}

/// One call on both: its number, and all bytes of the buffer after it.
fn add(
    trial: &mut Trial,
    buffer: &mut [u8],
    count: usize,
    identifier: &[u8],
    terms: &[u8],
) -> Result<u8, String> {
    let what = format!("{identifier:02X?} {terms:02X?} added to {count} of {} bytes", buffer.len());
    let mut second = buffer.to_vec();
    let number = book::add(&mut second, count, identifier, terms);
    same(&what, trial.library.add(buffer, count, identifier, terms), number)?;
    match (0..buffer.len()).find(|&at| buffer[at] != second[at]) {
        None => Ok(number),
        Some(at) => {
            same(&format!("{what}, answered {number}: byte {at}"), buffer[at], second[at]).map(|()| number)
        }
    }
}

/// An entry added to a book, or refused; the result is read again.
pub fn added(trial: &mut Trial, rng: &mut Rng) -> Outcome {
    let call = Call::new(rng);
    let mut buffer = call.buffer.clone();
    let number = add(trial, &mut buffer, call.count, &call.identifier, &call.terms)?;
    trial.coverage.added[usize::from(number)] += 1;
    reasons(&call, number).for_each(|name| trial.coverage.count_writer(name));
    if number == 0 {
        shown(&call, &buffer)?;
        opened(trial, rng, &buffer[..call.count + ENTRY])?;
    }
    readers_number(trial, &call, number)?;
    Ok(1)
}

/// "Reading the result must show the old entries in order and then the new one".
fn shown(call: &Call, after: &[u8]) -> Result<(), String> {
    let (Some(Ok(old)), Ok(new)) = (call.book(), Book::read(&after[..call.count + ENTRY])) else {
        return Err("a book that is refused where an entry was accepted".into());
    };
    let entries = |book: Book| {
        (0..book.entries).map(|i| [book.identifier(i), book.term(i)].concat()).collect::<Vec<_>>()
    };
    let expected = [entries(old), vec![[&call.identifier[..], &call.terms].concat()]].concat();
    same("machines of the grown book", new.machines, old.machines)?;
    same("entries of the grown book", entries(new), expected)
}

/// Where there is room, and the parts of the entry have their lengths, the writer's number is the reader's of the
/// book with that entry.
fn readers_number(trial: &mut Trial, call: &Call, number: u8) -> Result<(), String> {
    let Some(Ok(book)) = call.book() else { return Ok(()) };
    if number == 23 || call.identifier.len() != IDENTIFIER || call.terms.len() != TERM {
        return Ok(());
    }
    let (sizes, parts) = call.buffer[..call.count].split_at(4);
    let (names, old_terms) = parts.split_at(IDENTIFIER * book.entries);
    let grown = [sizes, names, &call.identifier, old_terms, &call.terms];
    let mut grown = grown.concat();
    grown[2] += 1;
    same("number of the book with the entry", trial.library.book(&grown), number)
}

/// What the call shows, by the names of `coverage::writer_names`.
fn reasons(call: &Call, number: u8) -> impl Iterator<Item = &'static str> {
    let room = call.buffer.len().saturating_sub(call.count);
    let book = call.book();
    let accepted = book.and_then(Result::ok);
    let refused = book.and_then(Result::err);
    let entries = accepted.map_or(0, |book| book.entries);
    let held = |entry: usize| {
        accepted.is_some_and(|book| entry < entries && book.identifier(entry) == call.identifier)
    };
    let faulty = isin::verdict(&call.identifier) != 0 || book::term(&call.terms).is_none();
    let of_book = accepted.is_some();
    let tests = [
        ("count past the end", book.is_none()),
        ("count near the largest", call.count > NEAR_LARGEST),
        ("faulty book, faulty entry, no room", refused.is_some() && faulty && room < ENTRY),
        ("65th entry", of_book && number == 2),
        ("65th entry, faulty, no room", of_book && number == 2 && faulty && room < ENTRY),
        ("form of the identifier", of_book && number == 4),
        ("identifier of another length", of_book && number == 4 && call.identifier.len() != IDENTIFIER),
        ("check digit", of_book && number == 5),
        ("identifier of the first entry", of_book && number == 6 && held(0)),
        ("identifier of the last entry", of_book && number == 6 && entries > 1 && held(entries - 1)),
        ("terms", of_book && number == 7),
        ("terms of another length", of_book && number == 7 && call.terms.len() != TERM),
        ("faulty entry and no room", of_book && (4..=7).contains(&number) && room < ENTRY),
        ("no room", number == 23),
        ("30 bytes of room", number == 23 && room == ENTRY - 1),
        ("accepted", number == 0),
        ("accepted in 31 bytes of room", number == 0 && room == ENTRY),
        ("accepted as the 64th entry", number == 0 && entries == ENTRIES - 1),
        ("accepted with a third byte 0", number == 0 && call.terms[2] == 0),
    ];
    let book_refused = refused.map(|number| REFUSED_BOOKS[usize::from(number) - 1]);
    tests.into_iter().filter(|(_, holds)| *holds).map(|(name, _)| name).chain(book_refused)
}

/// "each accepted book can be built from its empty one in this way"
pub fn built(trial: &mut Trial, rng: &mut Rng) -> Outcome {
    let (machines, entries) = inputs::sizes(rng);
    let entries = if rng.chance(1, 8) { ENTRIES as u16 } else { entries };
    let draft = Draft::new(rng, machines, entries);
    let entries = usize::from(entries);
    let rest: Vec<u8> = (0..ENTRY * entries + rng.below(61)).map(|_| rng.byte()).collect();
    let mut buffer = [&machines.to_le_bytes()[..], &[0, 0], &rest].concat();
    for (entry, (identifier, terms)) in draft.identifiers.iter().zip(&draft.terms).enumerate() {
        let number = add(trial, &mut buffer, 4 + ENTRY * entry, identifier, terms)?;
        same(&format!("entry {entry} of a book built"), number, 0)?;
    }
    same("book built", buffer, [&draft.bytes()[..], &rest[ENTRY * entries..]].concat())?;
    trial.coverage.count_writer("book built");
    if entries == ENTRIES {
        trial.coverage.count_writer("book of 64 entries built");
    }
    Ok(entries.max(1) as u64)
}
