//! Times of both sides, in turns, so that other work on the machine counts little. A short pass is timed by the wall clock, best of
//! all rounds. A long pass is always interrupted on a busy machine: it is timed by the thread's processor time, the median of the
//! rounds, since that clock sometimes gives too little.

use crate::side::{Side, LIBRARY, RUST};
use std::hint::black_box;
use std::time::Instant;

/// A batch lasts at least so long, in µs: short enough to fit between two interruptions.
const BATCH: f64 = 60.0;

/// A pass from so many µs on is long.
const LONG: f64 = 2000.0;

/// No call has fewer rounds.
const LEAST_ROUNDS: u32 = 41;

#[repr(C)]
struct Timespec {
    seconds: i64,
    nanoseconds: i64,
}

extern "C" {
    fn clock_gettime(clock: i32, time: *mut Timespec) -> i32;
}

/// The thread's processor time in µs (Linux): what other programs take is not counted.
fn thread_time() -> f64 {
    const THREAD_TIME: i32 = 3;
    let mut time = Timespec { seconds: 0, nanoseconds: 0 };
    let failed = unsafe { clock_gettime(THREAD_TIME, &mut time) };
    assert!(failed == 0, "the clock gives no time");
    time.seconds as f64 * 1e6 + time.nanoseconds as f64 / 1e3
}

/// Microseconds a call.
#[derive(Clone, Copy)]
pub struct Times {
    pub library: f64,
    pub rust: f64,
}

impl Times {
    pub fn ratio(&self) -> f64 {
        self.library / self.rust
    }
}

/// Runs `pass` so often and gives the µs of one, by wall clock and by processor time.
fn clock(passes: u32, side: &Side, pass: &mut impl FnMut(&Side)) -> (f64, f64) {
    let thread = thread_time();
    let wall = Instant::now();
    for _ in 0..passes {
        pass(black_box(side));
    }
    let wall = wall.elapsed().as_secs_f64() * 1e6;
    let thread = thread_time() - thread;
    (wall / f64::from(passes), thread / f64::from(passes))
}

fn best(rounds: &[(f64, f64)]) -> f64 {
    rounds.iter().map(|round| round.0).fold(f64::INFINITY, f64::min)
}

fn median(rounds: &[(f64, f64)]) -> f64 {
    let mut times: Vec<f64> = rounds.iter().map(|round| round.1).collect();
    times.sort_by(f64::total_cmp);
    times[times.len() / 2]
}

/// The times of a pass that makes so many calls.
pub fn times(rounds: u32, calls: usize, mut pass: impl FnMut(&Side)) -> Times {
    let first: Vec<_> = (0..5).map(|_| clock(1, &LIBRARY, &mut pass)).collect();
    let once = best(&first);
    let passes = (BATCH / once).ceil().max(1.0) as u32;
    // A longer pass gets fewer rounds.
    let rounds = rounds.min((f64::from(rounds) * BATCH / once) as u32).max(LEAST_ROUNDS);
    let (mut library, mut rust) = (Vec::new(), Vec::new());
    for _ in 0..rounds {
        library.push(clock(passes, &LIBRARY, &mut pass));
        rust.push(clock(passes, &RUST, &mut pass));
    }
    let of = if once < LONG { best } else { median };
    Times { library: of(&library) / calls as f64, rust: of(&rust) / calls as f64 }
}

/// The time of a pass that makes so many calls, of neither side.
pub fn time(rounds: u32, calls: usize, mut pass: impl FnMut()) -> f64 {
    let times = times(rounds, calls, |_| pass());
    times.library.min(times.rust)
}

/// The time of one pass by the wall clock.
pub fn once(pass: impl FnOnce()) -> f64 {
    let wall = Instant::now();
    pass();
    wall.elapsed().as_secs_f64() * 1e6
}

/// The mean of times.
pub fn mean(all: impl Iterator<Item = Times>) -> Times {
    let all: Vec<Times> = all.collect();
    let of = |time: fn(&Times) -> f64| all.iter().map(time).sum::<f64>() / all.len() as f64;
    Times { library: of(|t| t.library), rust: of(|t| t.rust) }
}
