//! The static library beside the second program, on random inputs, for a time and on all processors.
//!
//! A case is made from the seed and its number alone, so that any one can be run again by itself.

mod check;
mod crc_32;
// The wrapper's file and two of its tests': what they keep for themselves is called here, too.
#[allow(dead_code)]
#[path = "../../fossknut/src/ffi.rs"]
mod ffi;
#[allow(dead_code)]
#[path = "../../fossknut/tests/library/guarded.rs"]
mod guarded;
mod memory;
mod notification;
#[path = "../../fossknut/tests/library/numbers.rs"]
mod numbers;
mod pes;
mod receive;
mod run;
mod send;
mod target;

use std::env::args;
use std::fs::File;
use std::process::ExitCode;
use std::time::Duration;

use fossknut::Settings; // for the wrapper's file
use run::Run;
use target::every_answer;

/// The shortest run that has to reach every answer, in seconds.
const EVERY_ANSWER: u64 = 60;

/// By the words SECONDS, FILE, SEED and, for a single one, CASE; FILE gets the number of each case
/// before it begins, 8 bytes a thread.
fn main() -> ExitCode {
    let words: Vec<String> = args().collect();
    let number = |place: usize| words[place].parse::<u64>().expect("a number");
    let (seconds, seed, is_single) = (number(1), number(3), words.len() > 4);
    let cases = if is_single {
        number(4)..number(4) + 1
    } else {
        0..u64::MAX
    };
    let begun = File::create(&words[2]).expect("a file to write to");
    println!("fuzz: seed {seed}");
    target::keep_panics();
    let tallies = Run::new(seed, cases, begun).on_all_processors(Duration::from_secs(seconds));
    target::print(&tallies);
    if seconds < EVERY_ANSWER || is_single || every_answer(&tallies) {
        ExitCode::SUCCESS
    } else {
        ExitCode::FAILURE
    }
}

#[test]
fn the_first_cases_reach_every_answer() {
    let begun = File::create("/dev/null").expect("a file that takes all");
    let run = Run::new(1, 0..10_000, begun);
    assert!(every_answer(&run.on_all_processors(Duration::MAX / 2)));
}
