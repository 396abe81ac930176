//! Compares the proved library with the second implementation on random input from a seed.
//!
//! compare SEED COUNT                  COUNT thousand events of runs, and the rest in proportion
//! compare SEED COUNT SECTION INDEX    one case again
//! compare seeds FOLDER                inputs for the fuzzer
//!
//! Exit status 0: no difference. 1: a difference, which is printed. 2: the input did not reach all that it
//! should reach, or bad usage.

mod cases;
mod coverage;
mod damage;
mod driver;
mod fields;
mod inputs;
mod joins;
mod library;
mod rng;
mod seeds;
mod writer;

use cases::{Outcome, Trial};
use rng::Rng;
use std::process::ExitCode;

/// A kind of case, and how much of it there is for each thousand events.
struct Section {
    name: &'static str,
    case: fn(&mut Trial, &mut Rng) -> Outcome,
    share: u64,
}

const SECTIONS: [Section; 9] = [
    Section { name: "identifiers", case: cases::identifier, share: 500 },
    Section { name: "terms", case: cases::term, share: 500 },
    Section { name: "prices", case: cases::price, share: 200 },
    Section { name: "books", case: cases::book, share: 20 },
    Section { name: "runs", case: cases::run, share: 1000 },
    Section { name: "damaged", case: cases::damaged, share: 100 },
    Section { name: "characters", case: cases::characters, share: 50 },
    Section { name: "added", case: writer::added, share: 50 },
    Section { name: "built", case: writer::built, share: 50 },
];

/// From this count on, all of `Coverage::missing` must have been reached.
const ENOUGH: u64 = 100;

fn main() -> ExitCode {
    let words: Vec<String> = std::env::args().skip(1).collect();
    if let [command, folder] = &words[..] {
        if command == "seeds" {
            seeds::write(folder.as_ref()).expect("the folder can be written");
            return ExitCode::SUCCESS;
        }
    }
    let number = |at: usize| words.get(at).and_then(|word: &String| word.parse::<u64>().ok());
    let mut trial = Trial { library: library::Library::new(), coverage: Default::default() };
    match (number(0), number(1), words.get(2), number(3), words.len()) {
        (Some(seed), Some(count), None, _, 2) => all(&mut trial, seed, count),
        (Some(seed), Some(count), Some(name), Some(index), 4) => one(&mut trial, seed, count, name, index),
        _ => {
            eprintln!("usage: compare SEED COUNT [SECTION INDEX]");
            ExitCode::from(2)
        }
    }
}

fn all(trial: &mut Trial, seed: u64, count: u64) -> ExitCode {
    for number in 0..SECTIONS.len() {
        let section = &SECTIONS[number];
        let (mut compared, mut index) = (0, 0);
        while compared < section.share * count {
            match (section.case)(trial, &mut Rng::of_case(seed, number as u64, index)) {
                Ok(more) => compared += more,
                Err(difference) => return differs(seed, count, section.name, index, &difference),
            }
            index += 1;
        }
    }
    trial.coverage.print();
    let missing = trial.coverage.missing();
    if count >= ENOUGH && !missing.is_empty() {
        println!("not reached: {}", missing.join(", "));
        return ExitCode::from(2);
    }
    println!("no difference (seed {seed}, count {count})");
    ExitCode::SUCCESS
}

fn one(trial: &mut Trial, seed: u64, count: u64, name: &str, index: u64) -> ExitCode {
    let Some(number) = SECTIONS.iter().position(|section| section.name == name) else {
        eprintln!("no section {name}");
        return ExitCode::from(2);
    };
    match (SECTIONS[number].case)(trial, &mut Rng::of_case(seed, number as u64, index)) {
        Ok(_) => {
            println!("no difference in {name} {index} (seed {seed})");
            ExitCode::SUCCESS
        }
        Err(difference) => differs(seed, count, name, index, &difference),
    }
}

fn differs(seed: u64, count: u64, section: &str, index: u64, difference: &str) -> ExitCode {
    println!("DIFFERENCE in {section} {index} (seed {seed}): {difference}");
    println!("again: compare/run {seed} {count} {section} {index}");
    ExitCode::FAILURE
}
