//! What a sheet's columns ask of a share: multiplications and test wires.

use super::arithmetic::strict;
use crate::field::P;
use crate::sheet::{Column, Sheet};

/// The entry of each multiplication's first input, in the order of the multiplications. In a bit
/// check the second input is that entry less 1; see [`product_gates`] for the others.
pub(super) fn gate_entries(sheet: &Sheet) -> Vec<usize> {
    let mut gates = Vec::with_capacity(sheet.multiplications());
    let mut start = 0;
    for column in sheet.columns() {
        let end = start + column.entries();
        if let Column::Point(_) = column {
            // The bit checks, then x × x and x × y.
            gates.extend(start + 4..end);
            gates.extend([start, start]);
        } else {
            gates.extend(end - column.multiplications()..end);
        }
        start = end;
    }
    gates
}

/// A multiplication of two entries that is no bit check.
#[derive(Clone, Copy, Debug)]
pub(super) struct Product {
    /// Its number, from 1.
    pub gate: usize,
    pub left: usize,
    pub right: usize,
}

/// The multiplications that are no bit checks: x × x and x × y of each column of kind 21.
pub(super) fn product_gates(sheet: &Sheet) -> Vec<Product> {
    let mut products = Vec::new();
    let (mut entry, mut gates) = (0, 0);
    for column in sheet.columns() {
        if let Column::Point(_) = column {
            let (x, y) = (entry, entry + 2);
            let gate = gates + column.multiplications() - 1;
            products.extend([(gate, x), (gate + 1, y)].map(|(gate, right)| Product {
                gate,
                left: x,
                right,
            }));
        }
        entry += column.entries();
        gates += column.multiplications();
    }
    products
}

/// Columns as they are tested: neighbouring yes/no columns are taken together.
#[derive(Clone, Copy, Debug)]
pub(super) enum Group {
    YesNo(usize),
    Choice(usize),
    Number(usize),
    /// So many bits, and the top.
    Top(usize, u64),
    /// So many bits of x and of y.
    Point(usize),
}

pub(super) fn groups(sheet: &Sheet) -> Vec<Group> {
    let mut groups = Vec::new();
    for &column in sheet.columns() {
        match (column, groups.last_mut()) {
            (Column::YesNo, Some(Group::YesNo(count))) => *count += 1,
            (Column::YesNo, _) => groups.push(Group::YesNo(1)),
            (Column::Choice(options), _) => groups.push(Group::Choice(usize::from(options))),
            (Column::Number(bits), _) => groups.push(Group::Number(usize::from(bits))),
            (Column::Top(top), _) => {
                groups.push(Group::Top(usize::from(column.bits()), u64::from(top)));
            }
            (Column::Point(bits), _) => groups.push(Group::Point(usize::from(bits))),
        }
    }
    groups
}

impl Group {
    /// How many entries and how many multiplications it has.
    fn widths(self) -> (usize, usize) {
        match self {
            Group::YesNo(count) | Group::Choice(count) => (count, count),
            Group::Number(bits) => (1 + bits, bits),
            Group::Top(bits, _) => (1 + 2 * bits, 2 * bits),
            Group::Point(bits) => (4 + 2 * bits, 2 * bits + 2),
        }
    }
}

/// Fills in the test wires, column by column, loose. `outputs` are h(1)..h(M).
pub(super) fn test_wires(
    tests: &mut Vec<u64>,
    groups: &[Group],
    first: bool,
    mut entries: &[u64],
    mut outputs: &[u64],
) {
    tests.clear();
    for &group in groups {
        let (own, own_outputs);
        let (width, gates) = group.widths();
        (own, entries) = entries.split_at(width);
        (own_outputs, outputs) = outputs.split_at(gates);
        if let Group::Point(bits) = group {
            point_tests(tests, bits, own, own_outputs);
        } else {
            // Each bit check tests its product.
            tests.extend_from_slice(own_outputs);
            sum_tests(tests, group, first, own);
        }
    }
}

/// The test wires of a group's sums, which come after its bit checks.
#[inline(always)]
fn sum_tests(tests: &mut Vec<u64>, group: Group, first: bool, own: &[u64]) {
    match group {
        Group::YesNo(_) | Group::Point(_) => {}
        Group::Choice(_) => {
            let minus_one = if first { P - 1 } else { 0 };
            tests.push(strict(own.iter().sum::<u64>() + minus_one));
        }
        // Below 2^31 + 2^55 before the reduction.
        Group::Number(_) => tests.push(strict(weighed(&own[1..]) + P - own[0])),
        // Below 2^32 + 2^55 before the reduction.
        Group::Top(bits, top) => {
            let (low, high) = own[1..].split_at(bits);
            let minus_top = if first { P - top } else { 0 };
            tests.push(strict(weighed(low) + P - own[0]));
            tests.push(strict(weighed(high) + own[0] + minus_top));
        }
    }
}

/// The test wires of a column of kind 21: the bit checks and the sum of x, those of y, and what
/// x × x and x × y have more than their entries.
fn point_tests(tests: &mut Vec<u64>, bits: usize, entries: &[u64], outputs: &[u64]) {
    let (values, all_bits) = entries.split_at(4);
    let (checks, products) = outputs.split_at(2 * bits);
    let numbers = all_bits.chunks_exact(bits).zip(checks.chunks_exact(bits));
    for ((own_bits, own_checks), value) in numbers.zip([values[0], values[2]]) {
        tests.extend_from_slice(own_checks);
        tests.push(strict(weighed(own_bits) + P - value));
    }
    tests.push(strict(products[0] + P - values[1]));
    tests.push(strict(products[1] + P - values[3]));
}

/// The sum of 2^j times bit j.
fn weighed(bits: &[u64]) -> u64 {
    bits.iter().zip(0u32..).map(|(&bit, j)| bit << j).sum()
}
