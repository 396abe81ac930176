//! One input of libFuzzer, given to the library and to the second implementation. A difference stops the
//! program, as does a read or write outside a buffer.
//!
//! The first byte says what the rest is, modulo 7:
//!
//! 0. an identifier;
//! 1. a term;
//! 2. periods, payments, coupon and yield;
//! 3. the length of a book (2 bytes), the book, and events for its page;
//! 4. the length of a book (2 bytes), the book, and what is done to the table opened from it: events of 3
//!    bytes, and changes of one byte (240, offset in 2 bytes, value);
//! 5. the bytes of a table (shorter ones are filled with 0), then one event; first, all of these as they are get
//!    the question how many jobs are open;
//! 6. a count (2 bytes; from 65,280 on, the largest counts there are), the lengths of an identifier and of terms
//!    (a byte each), these two, and a buffer: the entry is added to the book that is its first bytes.

#[path = "../../src/bin/compare/library.rs"]
mod library;

use library::{Library, PAGE_BUFFER};
use second::book::{self, Book};
use second::table::{self, Table, BYTES};
use second::{check, events, isin, page, price};
use std::cell::RefCell;
use std::fmt::Debug;

const CHANGE: u8 = 240;
const MOST_STEPS: usize = 200;

thread_local! {
    static LIBRARY: RefCell<Library> = RefCell::new(Library::new());
}

/// # Safety
/// `data` points to `size` bytes.
#[no_mangle]
pub unsafe extern "C" fn LLVMFuzzerTestOneInput(data: *const u8, size: usize) -> i32 {
    if size > 0 {
        let input = std::slice::from_raw_parts(data, size);
        LIBRARY.with(|library| one_input(&mut library.borrow_mut(), input[0] % 7, &input[1..]));
    }
    0
}

fn one_input(library: &mut Library, kind: u8, input: &[u8]) {
    match kind {
        0 => same("identifier", library.identifier(input), isin::verdict(input)),
        1 => one_term(library, input),
        2 => one_price(library, input),
        3 => one_page(library, input),
        4 => one_run(library, input),
        5 => one_table(library, input),
        _ => one_entry(library, input),
    }
}

fn same<T: PartialEq + Debug>(what: &str, library: T, second: T) {
    if library != second {
        panic!("DIFFERENCE in {what}: the library gives {library:?}, the second implementation {second:?}");
    }
}

/// Two tables; the first byte that differs is named by its offset.
fn same_table(what: &str, library: &[u8], second: &[u8]) {
    if let Some(at) = (0..BYTES).find(|&at| library[at] != second[at]) {
        same(&format!("{what}, byte {at}"), library[at], second[at]);
    }
}

/// How many jobs are open, of any bytes.
fn same_open_jobs(library: &mut Library, bytes: &[u8]) {
    same("open jobs", library.open_jobs(bytes), table::open_jobs(bytes));
}

fn one_term(library: &mut Library, input: &[u8]) {
    let before = 0x0123_4567_89AB_CDEF;
    let second = book::term(input).map_or((7, before), |bond| (0, bond.price()));
    same("term", library.term(input, before), second);
}

fn one_price(library: &mut Library, input: &[u8]) {
    let mut bytes = [0; 18];
    bytes.iter_mut().zip(input).for_each(|(to, from)| *to = *from);
    let float =
        |at: usize| f64::from_bits((0..8).fold(0, |word, i| word | u64::from(bytes[at + i]) << (8 * i)));
    let (periods, payments, coupon, ytm) = (bytes[0], bytes[1], float(2), float(10));
    let second = price::price_zero(periods, payments, ytm);
    same("price of a zero", library.price_zero(periods, payments, ytm), second);
    let second = price::price_fixed(periods, payments, coupon, ytm);
    same("price of a fixed", library.price_fixed(periods, payments, coupon, ytm), second);
}

/// A length of 2 bytes, so many bytes (or all there are), and the rest.
fn split(input: &[u8]) -> (&[u8], &[u8]) {
    match input {
        [low, high, rest @ ..] => {
            let length = usize::from(u16::from_le_bytes([*low, *high]));
            rest.split_at(length.min(rest.len()))
        }
        _ => (&[], input),
    }
}

fn one_page(library: &mut Library, input: &[u8]) {
    let (book, events) = split(input);
    same("book", library.book(book), Book::read(book).err().unwrap_or(0));
    let text = page::page(book, events);
    let buffer = vec![0xEE; PAGE_BUFFER];
    let (written, length, after) = library.page(book, events, &buffer);
    same("page", (written, length), (true, text.len()));
    same("text of the page", String::from_utf8_lossy(&after[..length]), text.into());
}

fn one_run(library: &mut Library, input: &[u8]) {
    let (book, mut rest) = split(input);
    let opened = Book::read(book).map(|book| Table::open(&book));
    let mut bytes = vec![0; BYTES];
    same("open", library.open(book, &mut bytes), opened.as_ref().err().copied().unwrap_or(0));
    let Ok(table) = opened else { return };
    same_table("table opened", &bytes, &table.to_bytes());
    let mut kept = Kept { bytes, table: None };
    for _ in 0..MOST_STEPS {
        match *rest {
            [] => return,
            [CHANGE, low, high, value, ref after @ ..] => {
                kept.bytes[usize::from(u16::from_le_bytes([low, high])) % BYTES] = value;
                kept.table = None;
                rest = after;
            }
            _ => {
                let (event, after) = rest.split_at(rest.len().min(3));
                kept.step(library, event);
                rest = after;
            }
        }
    }
}

fn one_table(library: &mut Library, input: &[u8]) {
    let (table, event) = input.split_at(input.len().min(BYTES));
    let mut bytes = table.to_vec();
    bytes.resize(BYTES, 0);
    same_open_jobs(library, input);
    Kept { bytes, table: None }.step(library, event);
}

/// One call of the writer, and the grown book read again.
fn one_entry(library: &mut Library, input: &[u8]) {
    let [low, high, names, terms, ref rest @ ..] = *input else { return };
    let (identifier, rest) = rest.split_at(rest.len().min(names.into()));
    let (terms, buffer) = rest.split_at(rest.len().min(terms.into()));
    let count = match u16::from_le_bytes([low, high]) {
        large @ 0xFF00.. => usize::MAX - usize::from(u16::MAX - large),
        count => count.into(),
    };
    let (mut proved, mut second) = (buffer.to_vec(), buffer.to_vec());
    let number = book::add(&mut second, count, identifier, terms);
    same("number of an entry", library.add(&mut proved, count, identifier, terms), number);
    same("buffer after an entry", &proved, &second);
    if number == 0 {
        let grown = &proved[..count + book::ENTRY];
        same("book with an entry more", library.book(grown), Book::read(grown).err().unwrap_or(0));
    }
}

/// A snapshot, and the same for the second implementation where it was read and passes check 9.
struct Kept {
    bytes: Vec<u8>,
    table: Option<Table>,
}

impl Kept {
    /// Check 9 where the bytes were not looked at yet, then one event on both.
    fn step(&mut self, library: &mut Library, event: &[u8]) {
        if self.table.is_none() {
            self.table = Table::from_bytes(&self.bytes).filter(|table| check::check(table).is_ok());
            same("check", library.check(&self.bytes), if self.table.is_some() { 0 } else { 9 });
        }
        let number = self.table.as_mut().map_or(9, |table| events::answer(table, event));
        let second = match &self.table {
            Some(table) => table.to_bytes().to_vec(),
            None => self.bytes.clone(),
        };
        same("number of an event", library.step(&mut self.bytes, event), number);
        same_table("table after an event", &self.bytes, &second);
        same_open_jobs(library, &self.bytes);
    }
}
