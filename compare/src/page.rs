//! The program's page: a book and a list of events, and the text that they print.

use crate::book::Book;
use crate::events::answer;
use crate::table::{Job, Table, ENTRIES, NOT_ADMITTED, OPEN};
use std::fmt::Write;

/// "events.bin (at most 60,000 bytes; later ones are not read)"
pub const EVENT_BYTES: usize = 60_000;
/// No page is longer: a line of 23 bytes for each event, one of 48 for each entry, and one of 8 for the number
/// of open jobs.
pub const LONGEST: usize = EVENT_BYTES / 3 * 23 + ENTRIES * 48 + 8;

/// The page of a book and the bytes of its events.
pub fn page(book: &[u8], events: &[u8]) -> String {
    match Book::read(book) {
        Err(number) => format!("book refused {number}\n"),
        Ok(book) => run(&book, &events[..events.len().min(EVENT_BYTES)]),
    }
}

/// "each refused event prints a line [..] Then each entry prints a line"; and, by document 02, 2.4: "After an
/// accepted book the program prints "open" and this number as its last line". The table of a run passes
/// check 9, so it is not looked over again.
fn run(book: &Book, events: &[u8]) -> String {
    let mut text = String::new();
    let mut table = Table::open(book);
    for (place, event) in (1..).zip(events.chunks(3)) {
        let number = answer(&mut table, event);
        if number != 0 {
            line(&mut text, format_args!("event {place} refused {number}"));
        }
    }
    for entry in 0..book.entries {
        job_line(&mut text, &String::from_utf8_lossy(book.identifier(entry)), &table.jobs[entry]);
    }
    line(&mut text, format_args!("open {}", table.open_jobs));
    text
}

/// "identifier, then "not admitted", "open replica" and the number, or "priced", 16 upper-case
/// hexadecimal digits of the bits, "replica" and the number."
fn job_line(text: &mut String, identifier: &str, job: &Job) {
    match job.state {
        NOT_ADMITTED => line(text, format_args!("{identifier} not admitted")),
        OPEN => line(text, format_args!("{identifier} open replica {}", job.replica)),
        _ => line(text, format_args!("{identifier} priced {:016X} replica {}", job.price, job.replica)),
    }
}

fn line(text: &mut String, words: std::fmt::Arguments) {
    writeln!(text, "{words}").expect("a String takes any text");
}

#[cfg(test)]
pub(crate) mod tests {
    use super::page;

    /// "2 machines, ZZ0000000016 with the first terms above, ZZ0000000024 with the second": coupon 4,
    /// yield 0, 2 periods; zero, yield 0.5, 2 periods.
    pub const LISTING_BOOK: &[u8] = b"\x02\0\x02\0ZZ0000000016ZZ0000000024\
        \x02\x02\0\0\0\0\0\0\0\x10\x40\0\0\0\0\0\0\0\0\
        \x01\x02\0\0\0\0\0\0\0\0\0\0\0\0\0\0\0\xE0\x3F";

    #[test]
    fn listing() {
        let events = [
            [1, 0, 0],
            [2, 1, 0],
            [3, 1, 0],
            [3, 0, 0],
            [3, 0, 0],
            [3, 0, 1],
            [4, 1, 0],
            [5, 1, 0],
            [3, 1, 0],
            [3, 1, 0],
            [6, 0, 0],
        ];
        assert_eq!(
            page(LISTING_BOOK, events.as_flattened()),
            "event 11 refused 20\n\
             ZZ0000000016 priced 405A000000000000 replica 1\n\
             ZZ0000000024 not admitted\n\
             open 0\n"
        );
    }

    #[test]
    fn short_pages() {
        assert_eq!(page(&[2, 0, 0, 0], &[]), "open 0\n");
        assert_eq!(page(&[2, 0, 0, 0], &[1]), "event 1 refused 10\nopen 0\n");
        assert_eq!(page(&[], &[1]), "book refused 1\n");
    }

    /// Both entries admitted, and the second one priced by the root.
    #[test]
    fn open_line() {
        let events = [[1, 0, 0], [1, 1, 0], [4, 0, 1], [5, 0, 0], [3, 0, 0]];
        for (length, open) in [0, 1, 2, 2, 2, 1].into_iter().enumerate() {
            let text = page(LISTING_BOOK, events[..length].as_flattened());
            assert!(text.ends_with(&format!("\nopen {open}\n")), "{text}");
        }
        assert_eq!(
            page(LISTING_BOOK, events.as_flattened()),
            "ZZ0000000016 open replica 1\n\
             ZZ0000000024 priced 4050000000000000 replica 1\n\
             open 1\n"
        );
    }

    #[test]
    fn longest() {
        assert_eq!(super::LONGEST, 463_080);
    }
}
