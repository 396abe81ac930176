//! Writes book.bin and events.bin, the largest load that is measured, into a folder: the program's files.

use std::{fs, io, process::ExitCode};

fn write(folder: &str) -> io::Result<()> {
    fs::write(format!("{folder}/book.bin"), bench::book(16))?;
    fs::write(format!("{folder}/events.bin"), bench::events(16, 20_000))
}

fn main() -> ExitCode {
    let folder = std::env::args().nth(1).expect("bench/run names the folder");
    match write(&folder) {
        Ok(()) => ExitCode::SUCCESS,
        Err(fault) => {
            eprintln!("{folder}: {fault}");
            ExitCode::FAILURE
        }
    }
}
