//! The best of many rounds in which several pieces of work take turns, by the time that passed or by the thread's processor time.

use std::time::Instant;

#[repr(C)]
struct Timespec {
    seconds: i64,
    nanoseconds: i64,
}

extern "C" {
    fn clock_gettime(clock: i32, time: *mut Timespec) -> i32;
}

/// Linux's number of the clock.
const CLOCK_THREAD_CPUTIME_ID: i32 = 3;

/// A piece of work, which is done once a round.
pub type Work<'a> = dyn FnMut() + 'a;

/// Nanoseconds of processor time that this thread has taken, counted by the scheduler and not by ticks.
fn thread_time() -> f64 {
    let mut time = Timespec { seconds: 0, nanoseconds: 0 };
    assert_eq!(unsafe { clock_gettime(CLOCK_THREAD_CPUTIME_ID, &mut time) }, 0);
    time.seconds as f64 * 1e9 + time.nanoseconds as f64
}

/// Nanoseconds of one call of `work`, which does `units` units of it, divided by these.
fn once(work: &mut Work, units: usize) -> f64 {
    let start = Instant::now();
    work();
    start.elapsed().as_secs_f64() * 1e9 / units as f64
}

/// For each piece of work the nanoseconds of a unit in its best round, by the time that passed.
pub fn best(rounds: usize, units: usize, works: &mut [Box<Work>]) -> Vec<f64> {
    let mut least = vec![f64::INFINITY; works.len()];
    for _ in 0..rounds {
        for (time, work) in least.iter_mut().zip(works.iter_mut()) {
            *time = time.min(once(work, units));
        }
    }
    least
}

/// Nanoseconds of processor time of one call.
fn taken(work: &mut Work) -> f64 {
    let start = thread_time();
    work();
    thread_time() - start
}

/// The same by the processor time of the thread, in the best round but for the twentieth part that is lowest: on a virtual machine that
/// clock may come out too low in a round that is interrupted, and the least of all would be just such a round.
pub fn best_taken(rounds: usize, units: usize, works: &mut [Box<Work>]) -> Vec<f64> {
    let mut times = vec![vec![]; works.len()];
    for _ in 0..rounds {
        for (times, work) in times.iter_mut().zip(works.iter_mut()) {
            times.push(taken(work) / units as f64);
        }
    }
    times.iter_mut().for_each(|times| times.sort_by(f64::total_cmp));
    times.iter().map(|times| times[rounds / 20]).collect()
}
