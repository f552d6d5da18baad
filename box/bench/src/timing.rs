//! The time of a call, taken so that a busy machine and an eager compiler do not move it.

use std::time::{Duration, Instant};

/// Many and short, so that on a busy machine most of them run undisturbed.
const ROUNDS: usize = 501;
const ROUND: Duration = Duration::from_micros(200);

/// What is timed: it makes as many calls as it is told.
pub type Calls<'a> = Box<dyn FnMut(usize) + 'a>;

/// Seconds that one call of each program takes: the median of rounds in which they take turns.
pub fn seconds<const N: usize>(mut programs: [Calls; N]) -> [f64; N] {
    let mut calls = [0; N];
    for (calls, program) in calls.iter_mut().zip(&mut programs) {
        *calls = calls_in_a_round(program);
    }
    let mut seconds = [(); N].map(|()| Vec::with_capacity(ROUNDS));
    for _ in 0..ROUNDS {
        for (program, seconds) in seconds.iter_mut().enumerate() {
            let time = time(&mut programs[program], calls[program]);
            seconds.push(time.as_secs_f64() / calls[program] as f64);
        }
    }
    seconds.map(median)
}

fn median(mut seconds: Vec<f64>) -> f64 {
    seconds.sort_by(f64::total_cmp);
    seconds[seconds.len() / 2]
}

/// How many calls fill a round even in the quickest of five tries, found by doubling; this also
/// warms the caches.
fn calls_in_a_round(program: &mut Calls) -> usize {
    let mut calls = 1;
    while (0..5).any(|_| time(program, calls) < ROUND) {
        calls *= 2;
    }
    calls
}

fn time(program: &mut Calls, calls: usize) -> Duration {
    let start = Instant::now();
    program(calls);
    start.elapsed()
}

/// `value`, in a way that the compiler cannot see through (std's black_box is newer than Rust
/// 1.63).
pub fn opaque<T: Copy>(value: T) -> T {
    // SAFETY: a reference to a value that lives through the read.
    unsafe { std::ptr::read_volatile(&value) }
}
