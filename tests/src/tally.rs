//! Counting tests, telling which failed, also when a call ends in a signal.

use std::process::ExitCode;
use std::sync::atomic::{AtomicU32, Ordering};

use crate::suite::{current, Suite, Verdict};

static PASSED: AtomicU32 = AtomicU32::new(0);
static FAILED: AtomicU32 = AtomicU32::new(0);

extern "C" {
    fn signal(number: i32, handler: usize) -> usize;
    fn _exit(status: i32) -> !;
}

/// The counts of this run.
pub struct Tally(());

impl Tally {
    pub fn new() -> Tally {
        Tally(())
    }

    pub fn failed(&self) -> u32 {
        FAILED.load(Ordering::Relaxed)
    }

    /// Counts a test and prints it where it failed.
    pub fn note(&mut self, name: &str, verdict: Verdict) {
        match verdict {
            Ok(()) => PASSED.fetch_add(1, Ordering::Relaxed),
            Err(text) => {
                println!("FAILED: {name}\n{text}");
                FAILED.fetch_add(1, Ordering::Relaxed)
            }
        };
    }

    /// One test for each block of seeds.
    pub fn blocks(&mut self, suite: &mut Suite, name: &str, plan: (u64, u64), run: fn(&mut Suite, u64) -> Verdict) {
        let (blocks, size) = plan;
        for first in (0..blocks).map(|block| block * size) {
            let verdict = (first..first + size).try_for_each(|seed| run(suite, seed));
            self.note(&format!("{name}, seeds {first} to {}", first + size - 1), verdict);
        }
    }

    /// Prints the counts.
    pub fn end(&self) -> ExitCode {
        let (passed, failed) = (PASSED.load(Ordering::Relaxed), self.failed());
        println!("{passed} passed, {failed} failed");
        if failed == 0 && passed > 0 {
            ExitCode::SUCCESS
        } else {
            ExitCode::FAILURE
        }
    }
}

/// Tells the call that ended in a signal, counts it and ends.
extern "C" fn broken(number: i32) {
    let mut tally = Tally(());
    tally.note(&format!("signal {number}"), Err(current()));
    tally.end();
    unsafe { _exit(1) }
}

/// Has a call reported that ends in a signal: illegal instruction, abort, bus error, arithmetic, wrong address.
pub fn report_signals() {
    for number in [4, 6, 7, 8, 11] {
        unsafe { signal(number, broken as *const () as usize) };
    }
}
