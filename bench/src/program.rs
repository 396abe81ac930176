//! The program as a child process: the processor time of whole runs, user and system mode together, with events and without. The kernel
//! counts the sum exactly and divides it between the two modes by ticks, so that neither of the two is a time.

use bench::Load;
use second::page;
use std::path::{Path, PathBuf};
use std::process::{Command, Stdio};
use std::{fs, io};

const RUNS: usize = 80;

#[repr(C)]
#[derive(Clone, Copy, Default)]
struct Timeval {
    seconds: i64,
    microseconds: i64,
}

/// C's `struct rusage`.
#[repr(C)]
#[derive(Default)]
struct Usage {
    user: Timeval,
    system: Timeval,
    others: [i64; 14],
}

extern "C" {
    fn getrusage(who: i32, usage: *mut Usage) -> i32;
}

const RUSAGE_CHILDREN: i32 = -1;

/// Milliseconds of processor time of all children that have ended.
fn children() -> f64 {
    let mut usage = Usage::default();
    assert_eq!(unsafe { getrusage(RUSAGE_CHILDREN, &mut usage) }, 0);
    [usage.user, usage.system]
        .map(|time| time.seconds as f64 * 1e3 + time.microseconds as f64 / 1e3)
        .iter()
        .sum()
}

/// A folder with the program's two files.
fn folder(load: &Load) -> io::Result<PathBuf> {
    let folder = Path::new("target/program").join(load.name);
    fs::create_dir_all(&folder)?;
    fs::write(folder.join("book.bin"), &load.book)?;
    fs::write(folder.join("events.bin"), &load.events)?;
    Ok(folder)
}

/// A command that runs the program there, after a run whose page is compared.
fn command(program: &Path, load: &Load) -> io::Result<Command> {
    let mut command = Command::new(program);
    command.current_dir(folder(load)?).stdin(Stdio::null());
    let shown = command.output()?.stdout;
    assert!(page::page(&load.book, &load.events).as_bytes() == shown, "the program's page differs");
    command.stdout(Stdio::null());
    Ok(command)
}

/// Milliseconds of one run.
fn once(command: &mut Command) -> io::Result<f64> {
    let start = children();
    assert!(command.status()?.success(), "the program failed");
    Ok(children() - start)
}

/// For each load the least milliseconds of many runs, in which the loads take turns.
fn least(program: &Path, loads: &[Load]) -> io::Result<Vec<f64>> {
    let mut commands = loads.iter().map(|load| command(program, load)).collect::<io::Result<Vec<_>>>()?;
    let mut least = vec![f64::INFINITY; loads.len()];
    for _ in 0..RUNS {
        for (time, command) in least.iter_mut().zip(&mut commands) {
            *time = time.min(once(command)?);
        }
    }
    Ok(least)
}

pub fn table(program: &Path) -> io::Result<()> {
    let loads = [Load::none(16), Load::accepted(16, 20_000), Load::refused(16, 20_000)];
    let times = least(&program.canonicalize()?, &loads)?;
    println!(
        "| load | events | refused | processor time, ms | without the start, ns an event | events a second |"
    );
    println!("|---|---|---|---|---|---|");
    println!("| none | 0 | | {:.2} | | |", times[0]);
    for (load, time) in loads.iter().zip(&times).skip(1) {
        let count = load.count();
        let each = (time - times[0]) * 1e6 / count as f64;
        print!("| {} | {count} | {:.1} % | {time:.2} |", load.name, load.refused_share());
        println!(" {each:.1} | {:.0} |", 1e3 * count as f64 / time);
    }
    Ok(())
}
