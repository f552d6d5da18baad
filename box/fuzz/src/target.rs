//! What is compared: a function of the library a target.

use std::cell::RefCell;
use std::fmt::Debug;
use std::panic::{catch_unwind, set_hook, AssertUnwindSafe};

use second::random::Random;
use second::tally::Tally;

use crate::memory::Memory;
use crate::{check, crc_32, notification, pes, receive, send};

pub struct Target {
    pub name: &'static str,
    /// All that can be reached; CRC_32 has none.
    answers: &'static [u8],
    pub run: fn(Case) -> Result<(), String>,
}

/// What a case is made of, where it runs, and where its answers are counted.
pub struct Case<'a> {
    pub random: Random,
    pub memory: &'a mut Memory,
    pub tally: &'a mut Tally,
}

#[rustfmt::skip] // a target a line
pub const TARGETS: [Target; 7] = [
    Target { name: "crc_32", run: |case| case.run(crc_32::input, crc_32::compare), answers: &[] },
    Target { name: "check", run: |case| case.run(check::input, check::compare), answers: &[0, 12, 13, 14, 15, 16, 17, 18, 19, 24] },
    Target { name: "receive", run: |case| case.run(receive::input, receive::compare), answers: &[0, 1, 2, 10, 11, 12, 13, 14, 15, 16, 17, 18, 19, 20, 21, 22, 23, 24, 25] },
    Target { name: "send", run: |case| case.run(send::input, send::compare), answers: &[0, 10, 50, 51, 52, 53, 54] },
    Target { name: "send_by_default", run: |case| case.run(send::input_by_default, send::compare), answers: &[0, 10, 51, 52, 53, 54] },
    Target { name: "notification", run: |case| case.run(notification::input, notification::compare), answers: &[3, 4, 12, 13, 14, 15, 16, 17, 18, 30, 31, 32, 33] },
    Target { name: "pes", run: |case| case.run(pes::input, pes::compare), answers: &[5, 40, 41, 42, 43] },
];

/// One a target.
pub type Tallies = [Tally; TARGETS.len()];

thread_local! {
    static PANIC: RefCell<String> = RefCell::default();
}

/// Keeps what a panic says for the error of its case, so that two threads do not speak at once.
pub fn keep_panics() {
    set_hook(Box::new(|panic| {
        PANIC.with(|kept| *kept.borrow_mut() = panic.to_string());
    }));
}

impl Case<'_> {
    /// Makes the input and compares the two programs on it, which panics where they differ; then the
    /// error says how, and on which input.
    fn run<I: Debug>(
        mut self,
        input: fn(&mut Random) -> I,
        compare: fn(&I, &mut Memory, &mut Tally),
    ) -> Result<(), String> {
        self.memory.place_anew(&mut self.random);
        let mut made = None;
        let compared = catch_unwind(AssertUnwindSafe(|| {
            let made = made.insert(input(&mut self.random));
            compare(made, self.memory, self.tally);
        }));
        compared.map_err(|_| {
            let panic = PANIC.with(RefCell::take);
            format!("{panic}\ninput: {made:02X?}")
        })
    }
}

/// A line for each target that had an input.
pub fn print(tallies: &Tallies) {
    for (target, tally) in TARGETS.iter().zip(tallies) {
        let inputs = tally.answered().map(|(_, times)| times).sum();
        let mut line = format!("{}: {} inputs", target.name, grouped(inputs));
        let mut before = "; answers";
        for (number, times) in tally.answered().filter(|_| !target.answers.is_empty()) {
            line += &format!("{before} {number}: {}", grouped(times));
            before = ",";
        }
        if inputs > 0 {
            println!("{line}");
        }
    }
}

/// Whether every answer was given; says which was not.
pub fn every_answer(tallies: &Tallies) -> bool {
    let mut every = true;
    for (target, tally) in TARGETS.iter().zip(tallies) {
        let is_missing = |number: &&u8| tally.times(**number) == 0;
        for number in target.answers.iter().filter(is_missing) {
            eprintln!("fuzz: {} never answered {number}", target.name);
            every = false;
        }
    }
    every
}

/// 1,234,567.
pub fn grouped(number: usize) -> String {
    match number {
        0..=999 => number.to_string(),
        _ => format!("{},{:03}", grouped(number / 1_000), number % 1_000),
    }
}
