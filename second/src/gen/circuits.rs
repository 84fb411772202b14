//! Circuits that are read by themselves, not from a sheet.

use super::Rng;
use crate::circuit::{Step, MAX_BYTES, MAX_WIRES};
use crate::field::P;

/// A circuit under construction.
struct Draft {
    entries: u32,
    wires: u64,
    multiplications: u64,
    tests: u64,
    bytes: Vec<u8>,
}

impl Draft {
    fn new(entries: u32) -> Draft {
        Draft {
            entries,
            wires: 0,
            multiplications: 0,
            tests: 0,
            bytes: Vec::new(),
        }
    }

    fn push(&mut self, step: Step) {
        match step {
            Step::Multiply(..) => {
                self.multiplications += 1;
                self.wires += 1;
            }
            Step::Test(_) => self.tests += 1,
            _ => self.wires += 1,
        }
        step.write(&mut self.bytes);
    }

    fn wire(&self, rng: &mut Rng) -> u16 {
        rng.below(self.wires) as u16
    }

    /// A step of a kind, sound after at least one wire is made.
    fn step(&self, rng: &mut Rng, kind: u64) -> Step {
        match kind {
            1 => Step::Constant(rng.element()),
            2 => Step::Entry(rng.below(u64::from(self.entries)) as u16),
            3 => Step::Add(self.wire(rng), self.wire(rng)),
            4 => Step::Scale(self.wire(rng), rng.element()),
            5 => Step::Multiply(self.wire(rng), self.wire(rng)),
            _ => Step::Test(self.wire(rng)),
        }
    }

    /// Adds a sound step of a kind.
    fn add(&mut self, rng: &mut Rng, kind: u64) {
        let step = self.step(rng, kind);
        self.push(step);
    }

    /// A sound run of steps of exactly these counts; `wires` is without the
    /// multiplications.
    fn fill(&mut self, rng: &mut Rng, wires: u64, multiplications: u64, tests: u64) {
        if wires > 0 {
            let kind = rng.pick([1, 2]);
            self.add(rng, kind);
        }
        let mut kinds: Vec<u64> = Vec::new();
        for _ in 1..wires {
            kinds.push(rng.between(1, 4));
        }
        kinds.extend((0..multiplications).map(|_| 5));
        kinds.extend((0..tests).map(|_| 6));
        rng.shuffle(&mut kinds);
        for kind in kinds {
            self.add(rng, kind);
        }
    }
}

fn entries(rng: &mut Rng) -> u32 {
    let any = rng.between(1, 256) as u32;
    rng.pick([1, 2, 256, any])
}

/// A legal circuit with its number of entries.
pub fn circuit(rng: &mut Rng) -> (u32, Vec<u8>) {
    let mut draft = Draft::new(entries(rng));
    let (wires, multiplications, tests) = match rng.below(4) {
        0 => (1, 1, 1),
        1 => (MAX_WIRES as u64 - 256, 256, 512),
        2 => (
            rng.between(1, MAX_WIRES as u64 - 256),
            rng.between(1, 256),
            rng.between(1, 512),
        ),
        _ => (rng.between(1, 20), rng.between(1, 8), rng.between(1, 8)),
    };
    draft.fill(rng, wires, multiplications, tests);
    (draft.entries, draft.bytes)
}

/// A circuit that is meant to be refused, 1, 2 or 3, with its number of entries. (A few
/// that were only touched in one byte are legal after all.)
pub fn damaged_circuit(rng: &mut Rng) -> (u32, Vec<u8>) {
    let mut draft = Draft::new(entries(rng));
    let (wires, gates, tests) = (rng.between(1, 12), rng.between(1, 4), rng.between(1, 4));
    match rng.below(10) {
        // L outside its limits.
        0 => {
            draft.fill(rng, wires, gates, tests);
            let wrong = rng.pick([0, 257, 65_536, 65_537, u32::MAX]);
            return (wrong, draft.bytes);
        }
        // Too many bytes, with or without a record at fault before.
        1 => {
            if rng.chance(50) {
                draft.bytes.push(rng.pick([0, 7, 255]));
            }
            draft.fill(rng, wires, gates, tests);
            while draft.bytes.len() <= MAX_BYTES {
                draft.add(rng, 4);
            }
        }
        // Total limits just missed.
        2 => {
            let most = MAX_WIRES as u64;
            let (wires, gates, tests) = rng.pick([
                (most, 1, 1),
                (most - 255, 256, 1),
                (2, 257, 1),
                (2, 1, 513),
                (2, 0, 1),
                (2, 1, 0),
                (0, 0, 0),
                (1, 0, 0),
            ]);
            draft.fill(rng, wires, gates, tests);
        }
        // Total limits missed, and then a record at fault.
        3 => {
            draft.fill(rng, 2, 257, 1);
            faulty(rng, &mut draft);
        }
        // A record cut short.
        4 => {
            draft.fill(rng, wires, gates, tests);
            let kind = rng.between(1, 6);
            let before = draft.bytes.len();
            draft.add(rng, kind);
            let keep = rng.between(before as u64 + 1, draft.bytes.len() as u64 - 1);
            draft.bytes.truncate(keep as usize);
        }
        5 => {
            let length = rng.between(0, 40) as usize;
            let mut bytes = rng.bytes(length);
            for byte in &mut bytes {
                if rng.chance(60) {
                    *byte %= 7;
                }
            }
            return (draft.entries, bytes);
        }
        6 => {
            draft.fill(rng, wires, gates, tests);
            let at = rng.index(draft.bytes.len());
            draft.bytes[at] = rng.next_u64() as u8;
        }
        // A record at fault, with more behind it.
        _ => {
            if rng.chance(80) {
                draft.fill(rng, wires, gates, tests);
            }
            faulty(rng, &mut draft);
            match rng.below(3) {
                0 => {}
                1 => faulty(rng, &mut draft),
                _ => draft.fill(rng, wires, gates, tests),
            }
        }
    }
    (draft.entries, draft.bytes)
}

/// Adds a record with one fault or with two.
fn faulty(rng: &mut Rng, draft: &mut Draft) {
    let any = rng.between(draft.wires, u64::from(u16::MAX)) as u16;
    let next = rng.pick([draft.wires as u16, draft.wires as u16 + 1, any, u16::MAX]);
    let made = if draft.wires > 0 { draft.wire(rng) } else { 0 };
    let large = rng.no_element().to_le_bytes();
    let wire = |wire: u16| wire.to_le_bytes();
    let mut record: Vec<u8> = Vec::new();
    match rng.below(9) {
        0 => record.push(rng.pick([0, 7, 8, 128, 255])),
        1 => {
            record.push(1);
            record.extend(large);
        }
        2 => {
            record.push(2);
            let entry = draft.entries as u16;
            record.extend(wire(rng.pick([entry, entry + 1, 256, u16::MAX])));
        }
        3 => {
            record.push(4);
            record.extend(wire(rng.pick([made, next])));
            record.extend(large);
        }
        4 => {
            record.push(4);
            record.extend(wire(next));
            record.extend(((P - 1) as u32).to_le_bytes());
        }
        5 => {
            record.push(6);
            record.extend(wire(next));
        }
        _ => {
            record.push(rng.pick([3, 5]));
            let (left, right) = rng.pick([(made, next), (next, made), (next, next)]);
            record.extend(wire(left));
            record.extend(wire(right));
        }
    }
    draft.bytes.extend(record);
}
