//! Times two ways of doing the same work, by turns. Times are the processor's
//! for this thread, so that other work beside it counts little.

use std::time::{Duration, Instant};

use crate::coverage;

/// As C has it.
#[repr(C)]
struct Timespec {
    seconds: i64,
    nanoseconds: i64,
}

extern "C" {
    fn clock_gettime(clock: i32, time: *mut Timespec) -> i32;
}

/// The clock of the thread's processor time.
const CLOCK_THREAD_CPUTIME_ID: i32 = 3;

/// The thread's processor time so far, in nanoseconds.
fn now() -> f64 {
    let mut time = Timespec {
        seconds: 0,
        nanoseconds: 0,
    };
    // SAFETY: the pointer is that of a live variable of the call's type.
    let status = unsafe { clock_gettime(CLOCK_THREAD_CPUTIME_ID, &mut time) };
    assert_eq!(status, 0, "the system has this clock");
    time.seconds as f64 * 1e9 + time.nanoseconds as f64
}

/// The best time of each, in nanoseconds.
#[derive(Clone, Copy)]
pub struct Times {
    pub library: f64,
    pub independent: f64,
}

impl Times {
    pub const NONE: Times = Times {
        library: 0.0,
        independent: 0.0,
    };

    pub fn ratio(self) -> f64 {
        self.library / self.independent
    }
}

impl std::ops::AddAssign for Times {
    fn add_assign(&mut self, more: Times) {
        self.library += more.library;
        self.independent += more.independent;
    }
}

/// The most rounds.
const ROUNDS: u32 = 12;
/// One timing lasts at least this long, by repeating short work.
const LEAST: Duration = Duration::from_millis(4);
/// After this long there are no more rounds than two.
const ENOUGH: Duration = Duration::from_millis(700);
/// After this long there is no second round.
const SLOW: Duration = Duration::from_secs(4);

/// Runs both by turns and keeps the best of each. What the library does is by
/// this call, or begins with it.
pub fn compare(
    call: &'static str,
    mut library: impl FnMut(),
    mut independent: impl FnMut(),
) -> Times {
    coverage::note(call);
    let begin = Instant::now();
    let by_library = first(&mut library);
    let by_independent = first(&mut independent);
    let mut best = Times {
        library: by_library.1,
        independent: by_independent.1,
    };
    for round in 2..=ROUNDS {
        let enough = if round == 2 { SLOW } else { ENOUGH };
        if begin.elapsed() > enough {
            break;
        }
        best.library = best.library.min(once(&mut library, by_library.0));
        best.independent = best
            .independent
            .min(once(&mut independent, by_independent.0));
    }
    best
}

/// The best time of one work alone.
pub fn alone(mut work: impl FnMut()) -> f64 {
    let (times, mut best) = first(&mut work);
    for _ in 2..=ROUNDS {
        best = best.min(once(&mut work, times));
    }
    best
}

/// How often the work is to be repeated for one timing, and the first timing.
fn first(work: &mut impl FnMut()) -> (u32, f64) {
    let mut times = 1;
    loop {
        let time = once(work, times);
        if time * f64::from(times) >= LEAST.as_nanos() as f64 || times >= 1 << 20 {
            return (times, time);
        }
        times *= 2;
    }
}

/// The time of one piece of work, in nanoseconds.
fn once(work: &mut impl FnMut(), times: u32) -> f64 {
    let begin = now();
    for _ in 0..times {
        work();
    }
    (now() - begin) / f64::from(times)
}
