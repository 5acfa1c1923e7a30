//! Times of what is compared: the best of rounds that are made in turn.

use std::hint::black_box;
use std::time::{Duration, Instant};

/// What is printed about the times.
pub const NOTE: &str =
    "Each time is the best of at least 5 rounds, in turn with what it is beside.";

/// The fewest rounds.
const LEAST: usize = 5;

/// Rounds are made until this much has gone by.
const ENOUGH: Duration = Duration::from_millis(350);

/// Of a longer call only the time on a processor counts: it may have had to wait for other
/// processes in every round.
const LONG: Duration = Duration::from_millis(1);

/// Makes something ready, does it once, and returns the time that the doing took, in µs.
pub type Pass<'a> = dyn FnMut() -> f64 + 'a;

/// The best time of each pass, in µs.
pub fn best_in_turn(passes: &mut [&mut Pass]) -> Vec<f64> {
    let mut best = vec![f64::INFINITY; passes.len()];
    let start = Instant::now();
    let mut rounds = 0;
    let mut order: Vec<usize> = (0..passes.len()).collect();
    while rounds < LEAST || start.elapsed() < ENOUGH {
        for &index in &order {
            best[index] = best[index].min(passes[index]());
        }
        rounds += 1;
        // There and back, so that none always comes after the same one.
        order.reverse();
    }
    best
}

/// The time of a call, in µs. The answer is dropped later.
pub fn time<A>(call: impl FnOnce() -> A) -> f64 {
    let processor = on_processor();
    let start = Instant::now();
    let answer = black_box(call());
    let mut time = start.elapsed();
    if time > LONG {
        time = time.min(on_processor() - processor);
    }
    drop(answer);
    time.as_nanos() as f64 / 1_000.0
}

/// How long this thread has been on a processor.
fn on_processor() -> Duration {
    /// As C has it on 64-bit Linux.
    #[repr(C)]
    struct Time {
        seconds: i64,
        nanoseconds: i64,
    }

    unsafe extern "C" {
        fn clock_gettime(clock: i32, time: *mut Time) -> i32;
    }

    const THREAD: i32 = 3;

    let mut time = Time {
        seconds: 0,
        nanoseconds: 0,
    };
    // SAFETY: the pointer is to a time that may be written.
    let status = unsafe { clock_gettime(THREAD, &mut time) };
    assert_eq!(status, 0, "the thread has a clock");
    Duration::new(time.seconds as u64, time.nanoseconds as u32)
}
