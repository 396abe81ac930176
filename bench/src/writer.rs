//! Books built from their empty ones, entry by entry: the proved writer and that of the second implementation. Either reads the whole book
//! at each call, as the writer refuses a faulty one; the proved verdict on the same books is measured alone too.

use crate::c::{rakhvide_add, rakhvide_book};
use crate::timing::{best, Work};
use second::book::{self, Book, ENTRY};
use second::table::ENTRIES;
use std::hint::black_box;

type Add = fn(&mut [u8], usize, &[u8], &[u8]) -> u8;

fn proved(buffer: &mut [u8], count: usize, identifier: &[u8], terms: &[u8]) -> u8 {
    let (name, term) = (identifier.as_ptr(), terms.as_ptr());
    unsafe {
        rakhvide_add(buffer.as_mut_ptr(), buffer.len(), count, name, identifier.len(), term, terms.len())
    }
}

/// Adds the entries from one on up to another.
fn grow(buffer: &mut [u8], book: &Book, from: usize, to: usize, add: Add) {
    for entry in from..to {
        assert_eq!(add(buffer, 4 + ENTRY * entry, book.identifier(entry), book.term(entry)), 0);
    }
}

/// The book of the first entries, in a buffer with room for as many as there will be.
fn begun(book: &Book, entries: usize, most: usize, add: Add) -> Vec<u8> {
    let mut buffer = vec![0; 4 + ENTRY * most];
    buffer[0] = book.machines as u8;
    grow(&mut buffer, book, 0, entries, add);
    buffer
}

/// A round of so many times the same growth, each from the bytes that it begins with.
fn round<'a>(book: &'a Book, from: usize, to: usize, times: usize, add: Add) -> Box<Work<'a>> {
    let first = begun(book, from, to, add);
    let mut buffer = first.clone();
    Box::new(move || {
        for _ in 0..times {
            buffer.copy_from_slice(&first);
            grow(black_box(&mut buffer), book, from, to, add);
        }
    })
}

/// The verdict on the books that the calls begin with.
fn verdicts<'a>(book: &Book, from: usize, to: usize, times: usize) -> Box<Work<'a>> {
    let books: Vec<_> = (from..to).map(|entries| begun(book, entries, entries, book::add)).collect();
    Box::new(move || {
        for _ in 0..times {
            assert!(black_box(&books)
                .iter()
                .all(|book| unsafe { rakhvide_book(book.as_ptr(), book.len()) } == 0));
        }
    })
}

fn row(name: &str, bytes: &[u8], from: usize, to: usize) {
    let book = Book::read(bytes).expect("an accepted book");
    assert_eq!(begun(&book, ENTRIES, ENTRIES, proved), bytes);
    assert_eq!(begun(&book, to, to, proved), begun(&book, to, to, book::add));
    let times = 2_000 / (to - from);
    let calls = times * (to - from);
    let mut works = [
        round(&book, from, to, times, proved),
        round(&book, from, to, times, book::add),
        verdicts(&book, from, to, times),
    ];
    let least = best(100, calls, &mut works);
    let ratio = least[0] / least[1];
    println!("| {name} | {:.0} | {:.0} | {:.0} | {ratio:.2} |", least[0], least[2], least[1]);
}

pub fn table() {
    println!("| entries | proved, ns | the verdict in it, ns | Rust, ns | proved / Rust |");
    println!("|---|---|---|---|---|");
    let book = bench::book(16);
    row("the first", &book, 0, 1);
    row("from none to 8", &book, 0, 8);
    row("from none to 64", &book, 0, ENTRIES);
    row("the 64th", &book, ENTRIES - 1, ENTRIES);
}
