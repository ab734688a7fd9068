//! The processor time of a piece of work: time in which this thread waits or another one runs does not count.

use std::time::{Duration, Instant};

/// A time, as the C library stores it on 64-bit Linux.
#[repr(C)]
struct Timespec {
    seconds: i64,
    nanoseconds: i64,
}

/// The clock of the calling thread's processor time, by its number on Linux.
const THREAD_CPU_TIME: i32 = 3;

/// After this time no more than the least number of rounds is measured.
const LONG: Duration = Duration::from_secs(20);
const LEAST_ROUNDS: usize = 3;

extern "C" {
    fn clock_gettime(clock: i32, time: *mut Timespec) -> i32;
}

/// Returns the processor time that this thread has taken so far.
fn processor_time() -> Duration {
    let mut time = Timespec {
        seconds: 0,
        nanoseconds: 0,
    };
    // SAFETY: the call stores a time in the struct that it is passed, and keeps no pointer to it.
    let failed = unsafe { clock_gettime(THREAD_CPU_TIME, &mut time) };
    assert_eq!(failed, 0, "this thread has a clock of its processor time");
    Duration::new(time.seconds as u64, time.nanoseconds as u32)
}

/// Measures the processor time of `work`, and stores it in `best` if it is less.
pub fn keep_least(best: &mut Duration, work: impl FnOnce()) {
    let start = processor_time();
    work();
    *best = (*best).min(processor_time() - start);
}

/// Measures rounds of so many rows, the more of them the fewer rows there are.
pub fn measure_rounds(rows: usize, mut round: impl FnMut()) {
    let start = Instant::now();
    for number in 0..(10_000_000 / rows).clamp(LEAST_ROUNDS, 200) {
        if number >= LEAST_ROUNDS && start.elapsed() > LONG {
            break;
        }
        round();
    }
}

/// Returns `time` divided by `other`.
pub fn ratio(time: Duration, other: Duration) -> f64 {
    time.as_secs_f64() / other.as_secs_f64()
}

/// Returns the nanoseconds for each of `n` records.
pub fn per_record(time: Duration, n: usize) -> f64 {
    time.as_nanos() as f64 / n as f64
}
