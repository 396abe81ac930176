//! The book: "Sizes first, then two parallel arrays." And adding an entry to one (document 02, 2.2).

use crate::isin;
use crate::price::{Bond, Terms};
use crate::table::ENTRIES;

pub const IDENTIFIER: usize = 12;
pub const TERM: usize = 19;
pub const ENTRY: usize = IDENTIFIER + TERM;

/// The bytes of an accepted book and its two sizes.
#[derive(Clone, Copy, Debug)]
pub struct Book<'a> {
    bytes: &'a [u8],
    pub machines: usize,
    pub entries: usize,
}

impl<'a> Book<'a> {
    /// The book that these bytes hold, or the number of its refusal.
    pub fn read(bytes: &'a [u8]) -> Result<Book<'a>, u8> {
        if bytes.len() < 4 {
            return Err(1);
        }
        let machines = usize::from(u16::from_le_bytes([bytes[0], bytes[1]]));
        let entries = usize::from(u16::from_le_bytes([bytes[2], bytes[3]]));
        if !(2..=16).contains(&machines) || entries > 64 {
            return Err(2);
        }
        if bytes.len() != 4 + ENTRY * entries {
            return Err(3);
        }
        let book = Book { bytes, machines, entries };
        match (0..entries).map(|entry| book.fault(entry)).find(|&number| number != 0) {
            Some(number) => Err(number),
            None => Ok(book),
        }
    }

    /// An entry's first fault from left to right, 4 to 7, or 0.
    fn fault(&self, entry: usize) -> u8 {
        let identifier = self.identifier(entry);
        let verdict = isin::verdict(identifier);
        if verdict != 0 {
            verdict
        } else if (0..entry).any(|earlier| self.identifier(earlier) == identifier) {
            6
        } else if term(self.term(entry)).is_none() {
            7
        } else {
            0
        }
    }

    /// "The identifier of an entry is handed back as that part of the book."
    pub fn identifier(&self, entry: usize) -> &'a [u8] {
        &self.bytes[4 + IDENTIFIER * entry..][..IDENTIFIER]
    }

    pub fn term(&self, entry: usize) -> &'a [u8] {
        &self.bytes[4 + IDENTIFIER * self.entries + TERM * entry..][..TERM]
    }

    /// The bond of an entry; none past the last.
    pub fn bond(&self, entry: usize) -> Bond {
        if entry < self.entries {
            term(self.term(entry)).unwrap_or(Bond::NONE)
        } else {
            Bond::NONE
        }
    }
}

/// "A term is: kind (1 zero-coupon, 2 fixed coupon), periods [..], a spare byte [..], annual coupon per 100 of
/// face, annual yield as a fraction." "The spare byte of a term becomes the payments per year: 1, 2, 4 or 12,
/// and 0 reads as 2" (document 02, 2.3). None where it is outside the rules.
pub fn term(bytes: &[u8]) -> Option<Bond> {
    if bytes.len() != TERM {
        return None;
    }
    let payments = if bytes[2] == 0 { 2 } else { bytes[2] };
    let coupon = f64_at(bytes, 3);
    let ytm = f64_at(bytes, 11);
    let terms = match bytes[0] {
        // "a zero-coupon term's coupon has all 64 bits clear"
        1 if coupon.to_bits() == 0 => Terms::Zero { ytm },
        2 => Terms::Fixed { coupon, ytm },
        _ => return None,
    };
    Some(Bond { periods: bytes[1], payments, terms }).filter(Bond::in_range)
}

/// "it takes a buffer whose first bytes, of a stated count, are a book, and one identifier with its terms, and
/// leaves in the buffer the book with that entry last. [..] The bytes past the grown book are untouched."
/// (document 02, 2.2). The number; the buffer changes where it is 0.
pub fn add(buffer: &mut [u8], count: usize, identifier: &[u8], terms: &[u8]) -> u8 {
    match entries_to_grow(buffer, count, identifier, terms) {
        Err(number) => number,
        Ok(entries) => {
            let names = 4 + IDENTIFIER * entries;
            buffer.copy_within(names..count, names + IDENTIFIER);
            buffer[names..][..IDENTIFIER].copy_from_slice(identifier);
            buffer[count + IDENTIFIER..][..TERM].copy_from_slice(terms);
            buffer[2..4].copy_from_slice(&(entries as u16 + 1).to_le_bytes());
            0
        }
    }
}

/// The entries of a book that one more can be added to, or the number of the refusal.
fn entries_to_grow(buffer: &[u8], count: usize, identifier: &[u8], terms: &[u8]) -> Result<usize, u8> {
    // "A stated count past the buffer's end is refused 3 before all else."
    let (bytes, rest) = buffer.split_at_checked(count).ok_or(3)?;
    // "In this order: a faulty book is refused by its own number, a 65th entry by 2, a faulty entry by 4 to 7."
    let book = Book::read(bytes)?;
    if book.entries == ENTRIES {
        return Err(2);
    }
    // "An identifier not of 12 bytes is refused 4, terms not of 19 bytes 7."
    match isin::verdict(identifier) {
        0 => {}
        number => return Err(number),
    }
    if (0..book.entries).any(|entry| book.identifier(entry) == identifier) {
        return Err(6);
    }
    term(terms).ok_or(7)?;
    // "23, buffer shorter than the grown book, checked last"
    if rest.len() < ENTRY {
        return Err(23);
    }
    Ok(book.entries)
}

fn f64_at(bytes: &[u8], at: usize) -> f64 {
    let mut word = [0; 8];
    word.copy_from_slice(&bytes[at..at + 8]);
    f64::from_le_bytes(word)
}

#[cfg(test)]
mod tests {
    use super::*;

    fn term_bytes(kind: u8, periods: u8, coupon: f64, ytm: f64) -> Vec<u8> {
        [&[kind, periods, 0][..], &coupon.to_le_bytes(), &ytm.to_le_bytes()].concat()
    }

    #[test]
    fn periods() {
        assert!(term(&term_bytes(2, 240, 4.0, 0.0)).is_some());
        assert!(term(&term_bytes(2, 241, 4.0, 0.0)).is_none());
        assert!(term(&term_bytes(2, 0, 4.0, 0.0)).is_none());
    }

    #[test]
    fn payments() {
        for byte in 0..=u8::MAX {
            let mut bytes = term_bytes(2, 20, 4.0, 0.05);
            bytes[2] = byte;
            let read = term(&bytes).map(|bond| bond.payments);
            let expected = match byte {
                0 => Some(2),
                1 | 2 | 4 | 12 => Some(byte),
                _ => None,
            };
            assert_eq!(read, expected);
        }
    }

    #[test]
    fn yields() {
        assert!(term(&term_bytes(2, 1, 3.0, -0.0015)).is_some());
        assert!(term(&term_bytes(1, 2, 0.0, -0.5)).is_some());
        assert!(term(&term_bytes(1, 2, 0.0, (-0.5f64).next_down())).is_none());
    }

    #[test]
    fn zero_coupon_has_no_coupon() {
        assert!(term(&term_bytes(1, 2, 0.0, -0.0)).is_some());
        assert!(term(&term_bytes(1, 2, -0.0, 0.0)).is_none());
    }

    /// The book of document 01's listing from its empty one, with bytes after it that stay.
    #[test]
    fn added() {
        let terms = [term_bytes(2, 2, 4.0, 0.0), term_bytes(1, 2, 0.0, 0.5)];
        let names = [b"ZZ0000000016", b"ZZ0000000024"];
        let mut buffer = [&[2, 0, 0, 0][..], &[0xEE; 2 * ENTRY + 3]].concat();
        assert_eq!(add(&mut buffer, 4, names[0], &terms[0]), 0);
        assert_eq!(add(&mut buffer, 35, names[1], &terms[1]), 0);
        let book = [&[2, 0, 2, 0], &names[0][..], names[1], &terms[0], &terms[1]].concat();
        assert_eq!(buffer, [&book[..], &[0xEE; 3]].concat());
        assert_eq!(add(&mut buffer, book.len(), b"US0378331005", &terms[0]), 23);
        assert_eq!(add(&mut buffer, book.len(), b"US0378331005", &terms[0][..18]), 7);
        assert_eq!(add(&mut buffer, book.len(), names[0], &[]), 6);
        assert_eq!(add(&mut buffer, book.len(), b"US0378331006", &[]), 5);
        assert_eq!(add(&mut buffer, book.len(), b"US037833100", &[]), 4);
        assert_eq!(add(&mut buffer, book.len() + 1, b"US0378331005", &terms[0]), 3);
        assert_eq!(add(&mut buffer, usize::MAX, &[], &[]), 3);
        assert_eq!(add(&mut buffer, 3, &[], &[]), 1);
        assert_eq!(buffer, [&book[..], &[0xEE; 3]].concat());
    }

    /// Of the numbers for the room, 30 bytes are too few and 31 enough; 64 entries are full.
    #[test]
    fn room() {
        let terms = term_bytes(2, 2, 4.0, 0.0);
        let mut names = (1..).map(|i: u32| {
            let first = format!("ZZ{i:09}").into_bytes();
            [&first[..], &[isin::check_character(&first)]].concat()
        });
        let mut buffer = vec![2, 0, 0, 0];
        for name in names.by_ref().take(ENTRIES) {
            let count = buffer.len();
            buffer.resize(count + ENTRY - 1, 0);
            assert_eq!(add(&mut buffer, count, &name, &terms), 23);
            buffer.push(0);
            assert_eq!(add(&mut buffer, count, &name, &terms), 0);
            assert!(Book::read(&buffer).is_ok());
        }
        let last = names.next().expect("a name more");
        assert_eq!(add(&mut buffer, 4 + ENTRY * ENTRIES, &last, &terms), 2);
    }

    #[test]
    fn numbers() {
        let number = |bytes: &[u8]| Book::read(bytes).err().unwrap_or(0);
        assert_eq!(number(&[2, 0, 0, 0]), 0);
        assert_eq!(number(&[2, 0, 0]), 1);
        assert_eq!(number(&[1, 0, 0, 0]), 2);
        assert_eq!(number(&[2, 0, 65, 0]), 2);
        assert_eq!(number(&[2, 0, 1, 0]), 3);
        let book = |identifiers: &[u8], terms: &[Vec<u8>]| {
            let count = [2, 0, terms.len() as u8, 0];
            number(&[&count[..], identifiers, &terms.concat()].concat())
        };
        let good = term_bytes(2, 2, 4.0, 0.0);
        let bad = term_bytes(3, 2, 4.0, 0.0);
        assert_eq!(book(b"ZZ0000000016", &[good.clone()]), 0);
        assert_eq!(book(b"ZZ000000016 ", &[bad.clone()]), 4);
        assert_eq!(book(b"ZZ0000000017", &[bad.clone()]), 5);
        assert_eq!(book(b"ZZ0000000016ZZ0000000016", &[good, bad.clone()]), 6);
        assert_eq!(book(b"ZZ0000000016ZZ000000016 ", &[bad.clone(), bad]), 7);
    }
}
