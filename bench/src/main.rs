//! Times of the proved library beside the same work in C, in Rust and in QuantLib, in one run. Each number is the best of many rounds
//! in which all of them take turns, so that what else the machine does falls on all alike. With the name of a file, the tables of
//! events alone, and in them the library of that file too.

#[allow(dead_code)] // of the functions for C those of one term and of the open jobs are not measured
#[path = "../../compare/src/bin/compare/c.rs"]
mod c;
mod identifiers;
mod kept;
mod library;
mod pages;
mod prices;
mod program;
mod timing;
mod writer;

use library::Library;
use std::path::Path;
use std::process::ExitCode;

fn events(other: Option<&Library>) {
    let library = Library::linked();
    println!("### Pages, ns an event\n");
    pages::table(&library, other);
    println!("\n### The kept table, ns\n");
    kept::table(&library, other);
}

fn all() -> Result<(), String> {
    println!("### Identifiers\n");
    identifiers::table();
    println!("\n### Prices\n");
    prices::table();
    println!("\n### Adding entries\n");
    writer::table();
    println!();
    events(None);
    println!("\n### The program\n");
    program::table(Path::new("../crates/rakhvide/out/rakhvide")).map_err(|fault| format!("the program: {fault}"))
}

fn main() -> ExitCode {
    let done = match std::env::args().nth(1) {
        None => all(),
        Some(file) => Library::of_file(&file).map(|other| events(Some(&other))),
    };
    match done {
        Ok(()) => ExitCode::SUCCESS,
        Err(fault) => {
            eprintln!("bench: {fault}");
            ExitCode::FAILURE
        }
    }
}
