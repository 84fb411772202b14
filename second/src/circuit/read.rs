//! The circuit reader.

use super::{Circuit, Step, MAX_BYTES, MAX_WIRES};
use crate::field::P;
use crate::refusal;
use crate::sheet::{MAX_ENTRIES, MAX_MULTIPLICATIONS, MAX_TESTS};

/// "The body lengths of step kinds 1 to 6 are 4, 2, 4, 6, 4 and 2 bytes."
const BODY_LENGTHS: [usize; 6] = [4, 2, 4, 6, 4, 2];

/// Reads a circuit of L entries. "Reading stops at the first record at fault, and its
/// number is the refusal: kind and cut, then counts and constants, then wires and
/// entries; the total limits last (L of a circuit and its bytes before any step)."
pub fn read_circuit(entries: u32, bytes: &[u8]) -> Result<Circuit, u32> {
    if !(1..=MAX_ENTRIES).contains(&u64::from(entries)) || bytes.len() > MAX_BYTES {
        return Err(refusal::LIMIT);
    }
    let mut circuit = Circuit {
        entries: entries as usize,
        steps: Vec::new(),
        wires: 0,
        multiplications: 0,
        tests: 0,
    };
    let mut rest = bytes;
    while let Some((&kind, after_kind)) = rest.split_first() {
        // Kind and cut.
        let length = usize::from(kind)
            .checked_sub(1)
            .and_then(|index| BODY_LENGTHS.get(index))
            .ok_or(refusal::KIND)?;
        let (body, next) = after_kind.split_at_checked(*length).ok_or(refusal::KIND)?;
        let step = read_step(kind, body).ok_or(refusal::KIND)?;
        check_step(&circuit, step)?;
        match step {
            Step::Multiply(..) => {
                circuit.multiplications += 1;
                circuit.wires += 1;
            }
            Step::Test(_) => circuit.tests += 1,
            _ => circuit.wires += 1,
        }
        circuit.steps.push(step);
        rest = next;
    }
    if circuit.wires > MAX_WIRES
        || !(1..=MAX_MULTIPLICATIONS).contains(&(circuit.multiplications as u64))
        || !(1..=MAX_TESTS).contains(&(circuit.tests as u64))
    {
        return Err(refusal::LIMIT);
    }
    Ok(circuit)
}

/// The step of a kind and a body of that kind's length.
fn read_step(kind: u8, body: &[u8]) -> Option<Step> {
    let short = |low: u8, high: u8| u16::from_le_bytes([low, high]);
    let long = |bytes: [u8; 4]| u64::from(u32::from_le_bytes(bytes));
    Some(match (kind, body) {
        (1, &[a, b, c, d]) => Step::Constant(long([a, b, c, d])),
        (2, &[a, b]) => Step::Entry(short(a, b)),
        (3, &[a, b, c, d]) => Step::Add(short(a, b), short(c, d)),
        (4, &[a, b, c, d, e, f]) => Step::Scale(short(a, b), long([c, d, e, f])),
        (5, &[a, b, c, d]) => Step::Multiply(short(a, b), short(c, d)),
        (6, &[a, b]) => Step::Test(short(a, b)),
        _ => return None,
    })
}

/// Constants first (refusal 2), then wires and entries (refusal 3).
fn check_step(circuit: &Circuit, step: Step) -> Result<(), u32> {
    if let Step::Constant(constant) | Step::Scale(_, constant) = step {
        if constant >= P {
            return Err(refusal::LIMIT);
        }
    }
    let made = |wire: u16| usize::from(wire) < circuit.wires;
    let sound = match step {
        Step::Constant(_) => true,
        Step::Entry(entry) => usize::from(entry) < circuit.entries,
        Step::Add(left, right) | Step::Multiply(left, right) => made(left) && made(right),
        Step::Scale(wire, _) | Step::Test(wire) => made(wire),
    };
    if sound {
        Ok(())
    } else {
        Err(refusal::WIRE)
    }
}
