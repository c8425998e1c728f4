//! The clocks.

use std::time::Instant;

/// `timespec` and the clock of a thread as Linux on 64 bits has them.
#[repr(C)]
struct Timespec {
    seconds: i64,
    nanoseconds: i64,
}

const CLOCK_THREAD_CPUTIME_ID: i32 = 3;

extern "C" {
    fn clock_gettime(clock: i32, time: *mut Timespec) -> i32;
}

/// How long this thread has run, in nanoseconds.
fn thread_time() -> f64 {
    let mut time = Timespec { seconds: 0, nanoseconds: 0 };
    // SAFETY: `time` is a `timespec` that may be written.
    let failed = unsafe { clock_gettime(CLOCK_THREAD_CPUTIME_ID, &mut time) };
    assert_eq!(failed, 0);
    time.seconds as f64 * 1e9 + time.nanoseconds as f64
}

/// What something took, in nanoseconds.
#[derive(Clone, Copy)]
pub struct Time {
    /// How long this thread ran: what other programs take of the machine does not count.
    pub thread: f64,
    /// What went by on the clock, waiting included.
    pub wall: f64,
}

/// When a measurement began.
pub struct Start {
    wall: Instant,
    thread: f64,
}

impl Start {
    pub fn now() -> Self {
        Start { wall: Instant::now(), thread: thread_time() }
    }

    /// What each of so many calls took since then.
    pub fn each(&self, calls: usize) -> Time {
        let (thread, wall) = (thread_time() - self.thread, self.wall.elapsed().as_nanos() as f64);
        Time { thread: thread / calls as f64, wall: wall / calls as f64 }
    }
}

/// The middle one.
pub fn median(measured: &mut [f64]) -> f64 {
    measured.sort_by(f64::total_cmp);
    measured[measured.len() / 2]
}
