//! Carrying out calls, comparing, counting, and telling what failed.

use std::collections::BTreeMap;
use std::ptr::null_mut;
use std::sync::atomic::{AtomicPtr, AtomicU64, Ordering};

use second::gen::Rng;

use crate::calls::{Call, Done, Function, Outcome};
use crate::layout::{sound, AWAITS_ENTRY, SLOTS};
use crate::reference;
use crate::tell::{compared, told};

/// The call that the library is carrying out, for a report when it never comes back.
static CURRENT: AtomicPtr<Call> = AtomicPtr::new(null_mut());
static SEED: AtomicU64 = AtomicU64::new(0);

/// A test's answer; the error tells what failed.
pub type Verdict = Result<(), String>;

pub struct Suite {
    /// The stream of the guards.
    rng: Rng,
    seed: u64,
    pub calls: u64,
    /// How often each function gave each answer.
    pub seen: BTreeMap<(Function, u32), u64>,
    /// After how many calls of a mix eight returns waited, some of them for entry.
    pub crowded: u64,
    /// How many shares were taken from seeds.
    pub seeded: u64,
}

impl Suite {
    pub fn new() -> Suite {
        Suite { rng: Rng::new(0), seed: 0, calls: 0, seen: BTreeMap::new(), crowded: 0, seeded: 0 }
    }

    /// Starts over from a seed; gives the stream for the test's own choices.
    pub fn seed(&mut self, seed: u64) -> Rng {
        self.seed = seed;
        self.rng = Rng::new(seed ^ 0x6A4D_0000_0000_0000);
        SEED.store(seed, Ordering::Relaxed);
        Rng::new(seed)
    }

    /// Carries out a call whose answer must be that of the reference; gives it.
    pub fn check(&mut self, call: &Call) -> Result<Outcome, String> {
        let expected = self.reference(call)?;
        self.expect(call, expected)
    }

    /// The answer of the reference.
    pub fn reference(&self, call: &Call) -> Result<Outcome, String> {
        reference::answer(call).map_err(|text| self.failure(call, &text))
    }

    /// Carries out a call whose answer must be this; gives it.
    pub fn expect(&mut self, call: &Call, expected: Outcome) -> Result<Outcome, String> {
        CURRENT.store((call as *const Call).cast_mut(), Ordering::Relaxed);
        let actual = call.run(&mut self.rng);
        CURRENT.store(null_mut(), Ordering::Relaxed);
        self.calls += 1;
        match actual {
            Ok(Ok(done)) if !erased(call, &done) => {
                Err(self.failure(call, &format!("{}\nmust hold nothing of a decided return", told(&Ok(done)))))
            }
            Ok(actual) if actual == expected => {
                let number = expected.as_ref().err().copied().unwrap_or(0);
                *self.seen.entry((call.function, number)).or_insert(0) += 1;
                let seed = call.function == Function::Share && call.message.first() == Some(&38);
                self.seeded += u64::from(seed && number == 0);
                Ok(actual)
            }
            Ok(actual) => Err(self.failure(call, &compared(&actual, &expected))),
            Err(changed) => Err(self.failure(call, &changed)),
        }
    }

    /// A call has the answer of the reference.
    pub fn agrees(&mut self, call: &Call) -> Verdict {
        self.check(call).map(|_| ())
    }

    /// A call has this answer.
    pub fn gives(&mut self, call: &Call, expected: Outcome) -> Verdict {
        self.expect(call, expected).map(|_| ())
    }

    /// Carries out a call that must be refused with this number, or done for 0, by the reference too.
    pub fn number(&mut self, call: &Call, number: u32) -> Verdict {
        let expected = self.reference(call)?;
        if expected.as_ref().err().copied().unwrap_or(0) != number {
            let text = format!("the second program says {}\nmust be {number}", told(&expected));
            return Err(self.failure(call, &text));
        }
        self.gives(call, expected)
    }

    /// A failure with its seed and its call.
    pub fn failure(&self, call: &Call, text: &str) -> String {
        format!("seed {}\n{call}\nis {text}", self.seed)
    }

    /// Adds the counts of another suite.
    pub fn add(&mut self, other: Suite) {
        self.calls += other.calls;
        self.crowded += other.crowded;
        self.seeded += other.seeded;
        for (key, count) in other.seen {
            *self.seen.entry(key).or_insert(0) += count;
        }
    }
}

/// Whether an opened table is empty, and whether a call that decides a return has left one record fewer that waits, and
/// zeros in the record and in its place. An accepted verdict decides nothing: it changes the stage of a record alone.
fn erased(call: &Call, done: &Done) -> bool {
    use Function::{Drop, Enter, Open, RoundTwo};
    let Some(table) = sound(&done.table) else {
        return !matches!(call.function, Open | RoundTwo | Enter | Drop);
    };
    let freed = |record: &usize| call.table.slots[*record].stage != 0 && done.table.slots[*record].stage == 0;
    match call.function {
        Open => (0..SLOTS).all(|record| table.empty(&done.table, record)),
        RoundTwo if done.numbers == [1] => call
            .table
            .record(call.id)
            .is_some_and(|record| done.table == call.table.with(|table| table.slots[record].stage = AWAITS_ENTRY)),
        RoundTwo | Enter | Drop => {
            let freed: Vec<usize> = (0..SLOTS).filter(freed).collect();
            freed.len() == 1 && table.empty(&done.table, freed[0])
        }
        _ => true,
    }
}

/// The seed and the call that is being carried out.
pub fn current() -> String {
    let seed = SEED.load(Ordering::Relaxed);
    match unsafe { CURRENT.load(Ordering::Relaxed).as_ref() } {
        Some(call) => format!("seed {seed}\n{call}"),
        None => format!("seed {seed}, outside the library"),
    }
}
