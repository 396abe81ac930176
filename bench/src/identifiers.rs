//! Verdicts on identifiers of five sorts: the proved function and that of the second implementation.

use crate::c::rakhvide_identifier;
use crate::timing::{best, Work};
use bench::Numbers;
use second::isin;
use std::hint::black_box;

type Identifier = [u8; 12];

/// With a fifth as many, a processor has learnt after a few rounds which way the branches of each go.
const COUNT: usize = 100_000;

const DIGITS: &[u8] = b"0123456789";
const LETTERS: &[u8] = b"ABCDEFGHIJKLMNOPQRSTUVWXYZ";
const EITHER: &[u8] = b"0123456789ABCDEFGHIJKLMNOPQRSTUVWXYZ";

/// Two letters, nine of these characters, and the check digit with so much added.
fn identifier(numbers: &mut Numbers, characters: &[u8], added: u8) -> Identifier {
    let mut bytes = [0; 12];
    for (i, byte) in bytes[..11].iter_mut().enumerate() {
        let from = if i < 2 { LETTERS } else { characters };
        *byte = from[numbers.below(from.len())];
    }
    bytes[11] = b'0' + (isin::check_character(&bytes[..11]) - b'0' + added) % 10;
    bytes
}

/// One of the nine is in lower case, or a space.
fn misspelt(numbers: &mut Numbers) -> Identifier {
    let mut bytes = identifier(numbers, EITHER, 0);
    let place = 2 + numbers.below(9);
    bytes[place] = if bytes[place].is_ascii_uppercase() { bytes[place] + 32 } else { b' ' };
    bytes
}

fn proved(identifier: &Identifier) -> u8 {
    unsafe { rakhvide_identifier(identifier.as_ptr(), identifier.len()) }
}

fn rust(identifier: &Identifier) -> u8 {
    isin::verdict(identifier)
}

fn round(identifiers: &[Identifier], verdict: fn(&Identifier) -> u8) -> Box<Work<'_>> {
    Box::new(move || {
        black_box(identifiers.iter().map(|identifier| verdict(identifier) as u32).sum::<u32>());
    })
}

fn row(name: &str, number: u8, one: impl Fn(&mut Numbers) -> Identifier) {
    let mut numbers = Numbers(42);
    let identifiers: Vec<_> = (0..COUNT).map(|_| one(&mut numbers)).collect();
    for identifier in &identifiers {
        assert_eq!((proved(identifier), rust(identifier)), (number, number));
    }
    let times = best(50, COUNT, &mut [round(&identifiers, proved), round(&identifiers, rust)]);
    println!("| {name} | {number} | {:.1} | {:.1} | {:.2} |", times[0], times[1], times[0] / times[1]);
}

pub fn table() {
    println!("| the nine characters | verdict | proved, ns | Rust, ns | proved / Rust |");
    println!("|---|---|---|---|---|");
    row("digits", 0, |numbers| identifier(numbers, DIGITS, 0));
    row("letters", 0, |numbers| identifier(numbers, LETTERS, 0));
    row("either, at random", 0, |numbers| identifier(numbers, EITHER, 0));
    row("either, another check digit", 5, |numbers| identifier(numbers, EITHER, 1));
    row("either, and one that is not allowed", 4, misspelt);
}
