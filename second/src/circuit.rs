//! "Sheet and circuit", second half: circuits, their steps and their runs.

mod build;
mod read;

use crate::field::{self, P};
use crate::refusal;
use crate::sheet::Sheet;
use build::Builder;
pub use read::read_circuit;

/// Circuit bytes, at most.
pub const MAX_BYTES: usize = 17_920;
/// Wires, at most.
pub const MAX_WIRES: usize = 2_048;

/// One step of a circuit.
#[derive(Clone, Copy, Debug, PartialEq, Eq)]
pub enum Step {
    /// Kind 1: constant.
    Constant(u64),
    /// Kind 2: entry number.
    Entry(u16),
    /// Kind 3: add two wires.
    Add(u16, u16),
    /// Kind 4: wire times constant.
    Scale(u16, u64),
    /// Kind 5: multiply two wires.
    Multiply(u16, u16),
    /// Kind 6: test that a wire is zero.
    Test(u16),
}

impl Step {
    /// Appends the step's kind byte and body.
    pub(crate) fn write(self, out: &mut Vec<u8>) {
        let wire = |out: &mut Vec<u8>, number: u16| out.extend_from_slice(&number.to_le_bytes());
        match self {
            Step::Constant(constant) => {
                out.push(1);
                field::put(out, constant);
            }
            Step::Entry(entry) => {
                out.push(2);
                wire(out, entry);
            }
            Step::Add(left, right) => {
                out.push(3);
                wire(out, left);
                wire(out, right);
            }
            Step::Scale(source, constant) => {
                out.push(4);
                wire(out, source);
                field::put(out, constant);
            }
            Step::Multiply(left, right) => {
                out.push(5);
                wire(out, left);
                wire(out, right);
            }
            Step::Test(source) => {
                out.push(6);
                wire(out, source);
            }
        }
    }
}

/// A circuit within the limits: every step names only entries below L and wires
/// already made.
#[derive(Clone, Debug, PartialEq, Eq)]
pub struct Circuit {
    entries: usize,
    steps: Vec<Step>,
    wires: usize,
    multiplications: usize,
    tests: usize,
}

impl Circuit {
    /// The circuit of a sheet.
    pub fn of(sheet: &Sheet) -> Circuit {
        let mut builder = Builder::default();
        // "A sheet's circuit starts with the constant p - 1, wire 0."
        let minus_one = builder.make(Step::Constant(P - 1));
        let mut entry = 0;
        for column in sheet.columns() {
            builder.column(*column, entry, minus_one);
            entry += column.entries() as u16;
        }
        Circuit {
            entries: sheet.entries(),
            steps: builder.steps,
            wires: usize::from(builder.wires),
            multiplications: sheet.multiplications(),
            tests: sheet.tests(),
        }
    }

    /// The circuit's bytes.
    pub fn bytes(&self) -> Vec<u8> {
        let mut out = Vec::new();
        for step in &self.steps {
            step.write(&mut out);
        }
        out
    }

    /// L, the number of entries.
    pub fn entries(&self) -> usize {
        self.entries
    }

    /// The steps in order.
    pub fn steps(&self) -> &[Step] {
        &self.steps
    }

    /// The number of wires.
    pub fn wires(&self) -> usize {
        self.wires
    }

    /// M, the number of multiplications.
    pub fn multiplications(&self) -> usize {
        self.multiplications
    }

    /// K, the number of tests.
    pub fn tests(&self) -> usize {
        self.tests
    }

    /// "A list is valid when all tests are zero." `None` when the list does not have
    /// L elements.
    pub fn is_valid(&self, list: &[u64]) -> Option<bool> {
        if list.len() != self.entries || list.iter().any(|&element| element >= P) {
            return None;
        }
        let run = self.run(list, true, |_, left, right| field::mul(left, right));
        Some(run.tests.iter().all(|&wire| wire == 0))
    }

    /// Runs the steps wire by wire on L entries. `constants` tells whether constants
    /// count; `output` gives the output of multiplication t (from 1) from t and its
    /// two inputs.
    pub(crate) fn run<F>(&self, entries: &[u64], constants: bool, output: F) -> Run
    where
        F: Fn(usize, u64, u64) -> u64,
    {
        let mut wires: Vec<u64> = Vec::with_capacity(self.wires);
        let mut run = Run::default();
        for step in &self.steps {
            let wire = |number: u16| wires[usize::from(number)];
            let made = match *step {
                Step::Constant(constant) => {
                    if constants {
                        constant
                    } else {
                        0
                    }
                }
                Step::Entry(entry) => entries[usize::from(entry)],
                Step::Add(left, right) => field::add(wire(left), wire(right)),
                Step::Scale(source, constant) => field::mul(wire(source), constant),
                Step::Multiply(left, right) => {
                    let (left, right) = (wire(left), wire(right));
                    run.left.push(left);
                    run.right.push(right);
                    output(run.left.len(), left, right)
                }
                Step::Test(source) => {
                    run.tests.push(wire(source));
                    continue;
                }
            };
            wires.push(made);
        }
        run
    }
}

/// What a run of a circuit shows.
#[derive(Clone, Debug, Default, PartialEq, Eq)]
pub(crate) struct Run {
    /// u_1 to u_M.
    pub left: Vec<u64>,
    /// v_1 to v_M.
    pub right: Vec<u64>,
    /// The test wires, from 0.
    pub tests: Vec<u64>,
}

/// Sheet to circuit. Order of refusals: sheet, 14.
pub fn circuit(sheet: &[u8], room: usize) -> Result<Vec<u8>, u32> {
    let bytes = Circuit::of(&Sheet::read(sheet)?).bytes();
    if bytes.len() > room {
        return Err(refusal::ROOM);
    }
    Ok(bytes)
}
