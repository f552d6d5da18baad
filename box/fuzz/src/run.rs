//! A run: cases on all processors, until the time is over or one fails.

use std::fs::File;
use std::io::{stderr, Write};
use std::ops::Range;
use std::os::unix::fs::FileExt;
use std::process::exit;
use std::sync::atomic::{AtomicBool, AtomicU64, Ordering::Relaxed};
use std::thread::{available_parallelism, scope, sleep};
use std::time::{Duration, Instant};

use second::random::Random;

use crate::memory::Memory;
use crate::target::{grouped, Case, Tallies, TARGETS};

/// How long the last cases may take when the time is over.
const PATIENCE: Duration = Duration::from_secs(60);

pub struct Run {
    seed: u64,
    cases: Range<u64>,
    /// Where each thread writes what it begins: all that a crash leaves.
    begun: File,
    next: AtomicU64,
    is_over: AtomicBool,
}

impl Run {
    pub fn new(seed: u64, cases: Range<u64>, begun: File) -> Self {
        Self {
            seed,
            next: AtomicU64::new(cases.start),
            cases,
            begun,
            is_over: AtomicBool::new(false),
        }
    }

    pub fn on_all_processors(&self, time: Duration) -> Tallies {
        let mut all = Tallies::default();
        scope(|threads| {
            let count = available_parallelism().map_or(1, usize::from);
            let workers = (0..count).map(|thread| threads.spawn(move || self.work(thread)));
            let workers: Vec<_> = workers.collect();
            self.watch(time, || workers.iter().all(|worker| worker.is_finished()));
            for worker in workers {
                let tallies = worker.join().expect("a case's panic is caught");
                for (all, tally) in all.iter_mut().zip(&tallies) {
                    all.add(tally);
                }
            }
        });
        all
    }

    /// Tells each minute how far it is, and that the time is over.
    fn watch(&self, time: Duration, are_done: impl Fn() -> bool) {
        let start = Instant::now();
        let mut minutes = 0;
        while !are_done() {
            sleep(Duration::from_millis(20));
            self.is_over.store(start.elapsed() >= time, Relaxed);
            if start.elapsed().as_secs() / 60 > minutes {
                minutes += 1;
                let cases = self.next.load(Relaxed) - self.cases.start;
                println!("fuzz: {minutes} min, {} cases", grouped(cases as usize));
            }
            if start.elapsed() > time + PATIENCE {
                fail("a case does not end");
            }
        }
    }

    fn work(&self, thread: usize) -> Tallies {
        let mut memory = Memory::new();
        let mut tallies = Tallies::default();
        while !self.is_over.load(Relaxed) {
            let case = self.next.fetch_add(1, Relaxed);
            if !self.cases.contains(&case) {
                break;
            }
            let place = 8 * thread as u64;
            if let Err(error) = self.begun.write_all_at(&case.to_le_bytes(), place) {
                fail(&error.to_string());
            }
            let target = (case % TARGETS.len() as u64) as usize;
            let done = (TARGETS[target].run)(Case {
                random: Random::of_case(self.seed, case),
                memory: &mut memory,
                tally: &mut tallies[target],
            });
            if let Err(error) = done {
                let (seed, name) = (self.seed, TARGETS[target].name);
                fail(&format!("seed {seed}, target {name}, case {case}: {error}"));
            }
        }
        tallies
    }
}

/// Ends the run; no other thread says more.
fn fail(why: &str) -> ! {
    let mut errors = stderr().lock();
    writeln!(errors, "fuzz: {why}").ok();
    exit(1)
}
