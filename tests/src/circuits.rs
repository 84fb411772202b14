//! Circuits that are read by themselves: the order of refusals and the limits.

use crate::calls::{Call, Function};
use crate::suite::{Suite, Verdict};

const P: u32 = 2_147_483_647;

fn read(suite: &mut Suite, entries: u32, circuit: &[u8], number: u32) -> Verdict {
    suite.number(&Call { entries, message: circuit.to_vec(), ..Call::of(Function::ReadCircuit) }, number)
}

fn constant(number: u32) -> Vec<u8> {
    [&[1], &number.to_le_bytes()[..]].concat()
}

fn wires(kind: u8, numbers: &[u16]) -> Vec<u8> {
    let body: Vec<u8> = numbers.iter().flat_map(|number| number.to_le_bytes()).collect();
    [vec![kind], body].concat()
}

fn scale(wire: u16, number: u32) -> Vec<u8> {
    [wires(4, &[wire]), number.to_le_bytes().to_vec()].concat()
}

/// A circuit over 3 entries with 3 wires, a multiplication and a test.
fn good() -> Vec<u8> {
    [constant(P - 1), wires(2, &[2]), wires(5, &[0, 1]), wires(6, &[2])].concat()
}

/// Steps at fault over 3 entries where so many wires are made, each with its number.
fn faults(made: u16) -> Vec<(u32, Vec<u8>)> {
    let low = made.saturating_sub(1);
    vec![
        (1, vec![0]),
        (1, vec![7]),
        (1, vec![255]),
        (2, constant(P)),
        (2, constant(u32::MAX)),
        (2, scale(low, P)),
        (2, scale(made, P)),
        (2, scale(u16::MAX, u32::MAX)),
        (3, wires(2, &[3])),
        (3, wires(2, &[259])),
        (3, wires(2, &[u16::MAX])),
        (3, wires(3, &[low, made])),
        (3, wires(3, &[made, low])),
        (3, wires(3, &[made + 256, made + 256])),
        (3, wires(5, &[low, made])),
        (3, wires(5, &[made, low])),
        (3, scale(made, 1)),
        (3, wires(6, &[made])),
        (3, wires(6, &[u16::MAX])),
    ]
}

/// The first step at fault wins, also over the totals; the number of entries and the length come before any step.
pub fn order(suite: &mut Suite) -> Verdict {
    suite.seed(5);
    read(suite, 3, &good(), 0)?;
    let too_long = [good(), scale(0, 1).repeat(2560)].concat();
    for (number, step) in faults(3) {
        read(suite, 3, &[good(), step.clone()].concat(), number)?;
        read(suite, 3, &[good(), step.clone(), good()].concat(), number)?;
        read(suite, 3, &[step.clone(), too_long.clone()].concat(), 2)?;
        for entries in [0, 257, 65_537, u32::MAX] {
            read(suite, entries, &[good(), step.clone()].concat(), 2)?;
        }
        for (_, next) in faults(3) {
            read(suite, 3, &[good(), step.clone(), next].concat(), number)?;
        }
    }
    let too_many = [good(), wires(5, &[0, 0]).repeat(256)].concat();
    for (number, step) in faults(259) {
        read(suite, 3, &[too_many.clone(), step].concat(), number)?;
    }
    for (number, step) in faults(0) {
        read(suite, 3, &step, number)?;
    }
    cuts(suite)
}

/// Every step cut short is refused 1, also where its wire or constant is at fault.
fn cuts(suite: &mut Suite) -> Verdict {
    let steps = [constant(P), wires(2, &[9]), wires(3, &[9, 9]), scale(9, P), wires(5, &[9, 9]), wires(6, &[9])];
    for step in steps {
        for length in 1..step.len() {
            read(suite, 3, &[good(), step[..length].to_vec()].concat(), 1)?;
        }
    }
    Ok(())
}

/// The limits at both sides.
pub fn limits(suite: &mut Suite) -> Verdict {
    suite.seed(6);
    let gates = |count: usize| [constant(0), wires(5, &[0, 0]).repeat(count)].concat();
    let tests = |count: usize| wires(6, &[0]).repeat(count);
    read(suite, 1, &[], 2)?;
    read(suite, 1, &constant(0), 2)?;
    read(suite, 1, &gates(1), 2)?;
    read(suite, 1, &[constant(0), tests(1)].concat(), 2)?;
    for (entries, number) in [(0, 2), (1, 0), (256, 0), (257, 2), (1 << 16, 2), ((1 << 16) + 1, 2), (u32::MAX, 2)] {
        read(suite, entries, &[gates(1), tests(1)].concat(), number)?;
    }
    for (count, number) in [(1, 0), (256, 0), (257, 2), (65_536 / 5 - 9, 2)] {
        read(suite, 1, &[gates(count), tests(1)].concat(), number)?;
    }
    for (count, number) in [(1, 0), (512, 0), (513, 2), (5_000, 2)] {
        read(suite, 1, &[gates(1), tests(count)].concat(), number)?;
    }
    for (count, number) in [(2045, 0), (2046, 0), (2047, 2)] {
        read(suite, 1, &[gates(1), wires(2, &[0]).repeat(count), tests(1)].concat(), number)?;
    }
    lengths(suite)
}

/// 17,920 bytes are read, one more is not: 2,048 wires, of which 256 are multiplications, and 512 tests make the most.
fn lengths(suite: &mut Suite) -> Verdict {
    // 5 + 10 × 5 + 3 = 58 bytes, then steps of kind 4, 7 bytes each: 17,862 = 7 × 2551 + 5, one more constant of 5.
    let start = [constant(0), wires(5, &[0, 0]).repeat(10), wires(6, &[0])].concat();
    let long = |more: Vec<u8>| [start.clone(), scale(0, 1).repeat(2551), more].concat();
    // Too many wires, which is 2 too; a step at fault at the end tells whether the steps were read.
    let last = wires(5, &[0, u16::MAX]);
    let exact = long(last.clone());
    if exact.len() != 17_920 {
        return Err(format!("the test's circuit has {} bytes", exact.len()));
    }
    read(suite, 1, &exact, 3)?;
    read(suite, 1, &[exact.clone(), vec![0]].concat(), 2)?;
    read(suite, 1, &long(constant(0)), 2)?;
    // The largest circuits that are read.
    let most = [constant(0), scale(0, 1).repeat(1791), wires(5, &[0, 0]).repeat(256), wires(6, &[0]).repeat(512)];
    read(suite, 256, &most.concat(), 0)
}
