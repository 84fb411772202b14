//! A share's columns one after another: their inputs and their tests.

use super::layout::{value, Word};
use super::shape::Shape;
use crate::fast::arithmetic::{powers_sum, strict};
use crate::field::P;
use crate::sheet::{Column, MAX_TESTS};

/// So many tests need less room.
const SMALL: usize = 32;

/// A share's columns, those that are still to come.
pub(super) struct Walk<'a> {
    pub sheet: &'a [u8],
    /// p - 1 at server 0, else 0.
    pub minus_one: u64,
    pub entries: &'a [Word],
    /// Their part of h(1)..h(M).
    pub outputs: &'a [Word],
}

/// Takes so many words off the start.
fn take<'a>(words: &mut &'a [Word], count: usize) -> &'a [Word] {
    let (taken, rest) = words.split_at(count);
    *words = rest;
    taken
}

impl Walk<'_> {
    /// tau, loose. Notes the inputs of a sheet without points.
    pub fn gather(&mut self, shape: &Shape, s: u64, inputs: &mut [Word]) -> u64 {
        let mut checked = 0;
        self.tau::<false>(shape, s, |column, entries| {
            // The first entry of a number, or of a column with a top, is no input: the next one
            // overwrites it. The other kinds' entries are inputs.
            let lead = column.entries() - column.multiplications();
            for (i, &entry) in entries.iter().enumerate() {
                inputs[checked] = entry;
                checked += usize::from(i >= lead);
            }
        })
    }

    /// The same of a sheet with points, whose entries are no inputs of bit checks but for the
    /// bits. Notes how far the second inputs of their products are from those of bit checks.
    pub fn gather_points(
        &mut self,
        shape: &Shape,
        s: u64,
        inputs: &mut [Word],
        apart: &mut [Word],
    ) -> u64 {
        let mut checked = 0;
        let one = u64::from(self.minus_one != 0);
        self.tau::<true>(shape, s, |column, entries| {
            let products = 2 * usize::from(matches!(column, Column::Point(_)));
            let checks = column.multiplications() - products;
            let bits = &entries[entries.len() - checks..];
            inputs[checked..][..checks].copy_from_slice(bits);
            checked += checks;
            // x × x and x × y.
            for (_, &second) in (0..products).zip(entries.iter().step_by(2)) {
                inputs[checked] = entries[0];
                let far = strict(value(second) + P - value(entries[0]) + one) as u32;
                apart[checked] = far.to_le_bytes();
                checked += 1;
            }
        })
    }

    /// tau, loose. Shows each column with its entries; `POINTS` tells whether there may be points.
    pub fn tau<const POINTS: bool>(
        &mut self,
        shape: &Shape,
        s: u64,
        show: impl FnMut(Column, &[Word]),
    ) -> u64 {
        if shape.tests <= SMALL {
            self.tau_within::<SMALL, POINTS>(s, show)
        } else {
            self.tau_within::<{ MAX_TESTS as usize }, POINTS>(s, show)
        }
    }

    fn tau_within<const N: usize, const POINTS: bool>(
        &mut self,
        s: u64,
        mut show: impl FnMut(Column, &[Word]),
    ) -> u64 {
        let mut tests = [0; N];
        let mut count = 0;
        while let Ok(Some((column, next))) = Column::read(self.sheet) {
            self.sheet = next;
            let entries = take(&mut self.entries, column.entries());
            let outputs = take(&mut self.outputs, column.multiplications());
            let start = count;
            count += column.tests();
            match column {
                Column::Point(bits) if POINTS => {
                    let own = &mut tests[start..count];
                    point_tests(usize::from(bits), entries, outputs, own);
                }
                _ => {
                    for (place, &output) in tests[start..].iter_mut().zip(outputs) {
                        *place = value(output);
                    }
                    self.sum_tests(column, entries, &mut tests[..count]);
                }
            }
            show(column, entries);
        }
        powers_sum(&tests[..count], s, |wire| wire)
    }

    /// Notes the tests of a column's sums, which are the last of its tests, but for kind 21. The
    /// sums are below 2^32 + 2^55 before the reduction.
    #[inline(always)]
    fn sum_tests(&self, column: Column, entries: &[Word], tests: &mut [u64]) {
        match (column, tests) {
            (Column::Choice(_), [.., last]) => {
                let options = entries.iter().map(|&entry| value(entry));
                *last = strict(options.sum::<u64>() + self.minus_one);
            }
            (Column::Number(_), [.., last]) => {
                *last = strict(weighed(&entries[1..]) + P - value(entries[0]));
            }
            (Column::Top(top), [.., first, second]) => {
                let (low, high) = entries[1..].split_at(usize::from(column.bits()));
                // The constant p - T counts at server 0 only.
                let minus_top = if self.minus_one == 0 {
                    0
                } else {
                    P - u64::from(top)
                };
                *first = strict(weighed(low) + P - value(entries[0]));
                *second = strict(weighed(high) + value(entries[0]) + minus_top);
            }
            _ => {}
        }
    }
}

/// Notes the tests of a column of kind 21: the bit checks and the sum of x, those of y, and what
/// x × x and x × y have more than their entries.
fn point_tests(bits: usize, entries: &[Word], outputs: &[Word], tests: &mut [u64]) {
    let (x, y) = tests.split_at_mut(bits + 1);
    let (y, products) = y.split_at_mut(bits + 1);
    let less = |wire: u64, entry: usize| strict(wire + P - value(entries[entry]));
    for (number, tests) in [x, y].into_iter().enumerate() {
        let checks = &outputs[bits * number..][..bits];
        for (place, &output) in tests.iter_mut().zip(checks) {
            *place = value(output);
        }
        tests[bits] = less(weighed(&entries[4 + bits * number..][..bits]), 2 * number);
    }
    for (number, place) in products.iter_mut().enumerate() {
        *place = less(value(outputs[2 * bits + number]), 1 + 2 * number);
    }
}

/// The sum of 2^j times bit j.
fn weighed(bits: &[Word]) -> u64 {
    let terms = bits.iter().zip(0u32..);
    terms.map(|(&bit, j)| value(bit) << j).sum()
}
