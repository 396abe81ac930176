//! Random identifiers, terms and books: ones in order, and ones with faults.

use crate::rng::Rng;
use second::book::{IDENTIFIER, TERM};
use second::isin;

/// The third bytes of a term that pass, and neighbours and sums of them, which do not.
pub const PAYMENTS: &[u8] = &[0, 1, 2, 4, 12];
pub const OTHER_BYTES: &[u8] = &[3, 5, 6, 8, 11, 13, 24, 128, 255];

const LETTERS: &[u8] = b"ABCDEFGHIJKLMNOPQRSTUVWXYZ";
const LETTERS_AND_DIGITS: &[u8] = b"ABCDEFGHIJKLMNOPQRSTUVWXYZ0123456789";

/// An identifier that passes.
pub fn identifier(rng: &mut Rng) -> Vec<u8> {
    let mut characters: Vec<u8> = (0..2).map(|_| rng.pick(LETTERS)).collect();
    let rest = if rng.chance(1, 3) { &LETTERS_AND_DIGITS[26..] } else { LETTERS_AND_DIGITS };
    characters.extend((0..9).map(|_| rng.pick(rest)));
    characters.push(isin::check_character(&characters));
    characters
}

/// One fault, or none: another check digit, another character, two swapped, cut, longer. One of another
/// length stays.
pub fn damage_identifier(rng: &mut Rng, identifier: &mut Vec<u8>) {
    if identifier.len() != IDENTIFIER {
        return;
    }
    let at = rng.below(12);
    match rng.below(8) {
        0 => identifier[11] = b'0' + rng.number(10),
        1 => identifier[at] = rng.pick(LETTERS_AND_DIGITS),
        2 => identifier[at] = rng.pick(b"/:@[`{ az\0\x7F\x80\xFF"),
        3 => identifier[at] = rng.byte(),
        4 => identifier.swap(at, (at + 1) % 12),
        5 => identifier.truncate(at),
        6 => identifier.push(rng.pick(b"0 \0A")),
        _ => identifier.make_ascii_lowercase(),
    }
}

/// Any 64 bits, with much weight on the ends of ranges, their neighbours, and every kind of special value.
pub fn float(rng: &mut Rng) -> f64 {
    let ends = [0.0, 1.0, 100.0, 2.0, 0.5, 4.0, 0.25, f64::MIN_POSITIVE, f64::MAX, f64::INFINITY, 5e-324];
    let value = match rng.below(8) {
        0 | 1 => rng.pick(&ends),
        2 => rng.pick(&ends).next_up(),
        3 => rng.pick(&ends).next_down(),
        4 => rng.unit() * rng.pick(&ends[1..4]),
        5 => f64::from_bits(rng.next() >> 12),
        6 => f64::from_bits(0x7FF0_0000_0000_0000 | rng.next() >> rng.pick(&[12, 20, 40, 62])),
        _ => f64::from_bits(rng.next()),
    };
    if rng.chance(1, 4) {
        -value
    } else {
        value
    }
}

/// A rate from 0 to an end, both included; negative zero too.
pub fn rate(rng: &mut Rng, end: f64) -> f64 {
    match rng.below(8) {
        0 => rng.pick(&[0.0, -0.0, end, end.next_down(), end / 2.0, f64::MIN_POSITIVE, 5e-324]),
        1 => f64::from_bits(rng.next() >> 12),
        2 => end * rng.below(1000) as f64 / 1000.0,
        _ => end * rng.unit(),
    }
}

/// A yield from -0.5 to 1, both included; a third of them not above 0.
pub fn ytm(rng: &mut Rng) -> f64 {
    if rng.chance(1, 3) {
        -rate(rng, 0.5)
    } else {
        rate(rng, 1.0)
    }
}

/// A term that passes.
pub fn term(rng: &mut Rng) -> Vec<u8> {
    let kind = 1 + rng.number(2);
    let periods = if rng.chance(1, 8) { rng.pick(&[1, 2, 239, 240]) } else { 1 + rng.number(240) };
    let coupon = if kind == 1 { 0.0 } else { rate(rng, 100.0) };
    [&[kind, periods, rng.pick(PAYMENTS)][..], &coupon.to_le_bytes(), &ytm(rng).to_le_bytes()].concat()
}

/// Changes one field, or the length, to values inside and outside the rules. One of another length stays.
pub fn damage_term(rng: &mut Rng, term: &mut Vec<u8>) {
    if term.len() != TERM {
        return;
    }
    match rng.below(14) {
        0 => term[0] = rng.pick(&[0, 1, 2, 3, 255]),
        1 => term[1] = rng.pick(&[0, 1, 239, 240, 241, 255]),
        2 => term[1] = rng.byte(),
        3 => term[2] = rng.pick(OTHER_BYTES),
        4 => term[2] = rng.byte(),
        5..=7 => term[3..11].copy_from_slice(&float(rng).to_le_bytes()),
        8..=10 => term[11..19].copy_from_slice(&float(rng).to_le_bytes()),
        11 | 12 => term[rng.below(19)] = rng.byte(),
        _ if rng.chance(1, 2) => term.truncate(rng.below(19)),
        _ => term.extend([0, 0]),
    }
}

/// A book as its parts, so that each can be damaged.
pub struct Draft {
    pub machines: u16,
    pub entries: u16,
    pub identifiers: Vec<Vec<u8>>,
    pub terms: Vec<Vec<u8>>,
}

impl Draft {
    /// A book that passes.
    pub fn new(rng: &mut Rng, machines: u16, entries: u16) -> Draft {
        let mut identifiers: Vec<Vec<u8>> = Vec::new();
        while identifiers.len() < usize::from(entries) {
            let identifier = identifier(rng);
            if !identifiers.contains(&identifier) {
                identifiers.push(identifier);
            }
        }
        let terms = (0..entries).map(|_| term(rng)).collect();
        Draft { machines, entries, identifiers, terms }
    }

    pub fn bytes(&self) -> Vec<u8> {
        let sizes = [self.machines.to_le_bytes(), self.entries.to_le_bytes()].concat();
        [sizes, self.identifiers.concat(), self.terms.concat()].concat()
    }

    /// One fault: a size, or in some entry its identifier, its term, or an identifier held already.
    pub fn damage(&mut self, rng: &mut Rng) {
        let entry = rng.below(self.identifiers.len());
        match rng.below(8) {
            0 => self.machines = rng.pick(&[0, 1, 2, 16, 17, 255, 256, 258, 512, 65535]),
            1 => self.entries = rng.pick(&[0, 1, self.entries ^ 1, 64, 65, 256, 257, 65535]),
            _ if self.identifiers.is_empty() => self.machines = rng.next() as u16,
            2 | 3 => damage_identifier(rng, &mut self.identifiers[entry]),
            4 | 5 => damage_term(rng, &mut self.terms[entry]),
            _ => self.identifiers[entry] = self.identifiers[rng.below(self.identifiers.len())].clone(),
        }
    }
}

/// Sizes of a book: often the ends of their ranges.
pub fn sizes(rng: &mut Rng) -> (u16, u16) {
    let machines = match rng.below(4) {
        0 => rng.pick(&[2, 16]),
        1 => 2 + rng.below(3),
        _ => 2 + rng.below(15),
    };
    let entries = match rng.below(5) {
        0 => rng.pick(&[0, 1, 63, 64]),
        1 | 2 => 1 + rng.below(6),
        _ => rng.below(65),
    };
    (machines as u16, entries as u16)
}
