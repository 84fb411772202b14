//! A sheet's circuit, column by column.

use super::Step;
use crate::field::P;
use crate::sheet::Column;

/// Steps under construction; "kinds 1 to 5 each make the next wire, from 0".
#[derive(Default)]
pub(super) struct Builder {
    pub steps: Vec<Step>,
    pub wires: u16,
}

impl Builder {
    /// Adds a step that makes a wire; gives the wire's number.
    pub fn make(&mut self, step: Step) -> u16 {
        self.steps.push(step);
        self.wires += 1;
        self.wires - 1
    }

    /// Adds a column's steps; `entry` is its first entry.
    pub fn column(&mut self, column: Column, entry: u16, minus_one: u16) {
        match column {
            // "Kind 17 is one bit check."
            Column::YesNo => {
                self.bit_check(entry, minus_one);
            }
            // "B bit checks; then, from wire 0, add each option's entry wire in
            // order; test the last sum."
            Column::Choice(options) => {
                let wires: Vec<u16> = (0..u16::from(options))
                    .map(|option| self.bit_check(entry + option, minus_one))
                    .collect();
                let last = wires.iter().fold(minus_one, |running, &wire| {
                    self.make(Step::Add(running, wire))
                });
                self.steps.push(Step::Test(last));
            }
            // "Entry v; b bit checks; v times p - 1; for each bit j from 0, bit
            // wire times 2^j, then add the running sum and it; test the last sum."
            Column::Number(bits) => {
                let value = self.make(Step::Entry(entry));
                self.number(value, bits, entry + 1, minus_one);
            }
            // "Entry v; 2b bit checks; the sum and test of kind 19 over the first bits; then
            // the constant p - T, add v to it, add each of the second bits times 2^j, bit by
            // bit as there, and test."
            Column::Top(top) => {
                let bits = column.bits();
                let value = self.make(Step::Entry(entry));
                let wires: Vec<u16> = (0..2 * u16::from(bits))
                    .map(|bit| self.bit_check(entry + 1 + bit, minus_one))
                    .collect();
                let (first, second) = wires.split_at(usize::from(bits));
                let start = self.make(Step::Scale(value, P - 1));
                self.add_bits(start, first);
                let minus_top = self.make(Step::Constant(P - u64::from(top)));
                let start = self.make(Step::Add(minus_top, value));
                self.add_bits(start, second);
            }
            Column::Point(bits) => self.point(bits, entry, minus_one),
        }
    }

    /// "The four entries; the kind 19 checks for x and then for y over their own bits; multiply
    /// x by x, add the second entry times p - 1, test; multiply x by y, add the fourth times
    /// p - 1, test."
    fn point(&mut self, bits: u8, entry: u16, minus_one: u16) {
        let [x, square, y, product] =
            [0, 1, 2, 3].map(|number| self.make(Step::Entry(entry + number)));
        self.number(x, bits, entry + 4, minus_one);
        self.number(y, bits, entry + 4 + u16::from(bits), minus_one);
        self.product_check(x, x, square);
        self.product_check(x, y, product);
    }

    /// Checks that a wire is the product of two others.
    fn product_check(&mut self, left: u16, right: u16, claimed: u16) {
        let product = self.make(Step::Multiply(left, right));
        let scaled = self.make(Step::Scale(claimed, P - 1));
        let sum = self.make(Step::Add(product, scaled));
        self.steps.push(Step::Test(sum));
    }

    /// Kind 19's checks of a value's wire: the bits stand from an entry on.
    fn number(&mut self, value: u16, bits: u8, first_bit: u16, minus_one: u16) {
        let wires: Vec<u16> = (0..u16::from(bits))
            .map(|bit| self.bit_check(first_bit + bit, minus_one))
            .collect();
        let start = self.make(Step::Scale(value, P - 1));
        self.add_bits(start, &wires);
    }

    /// From a running sum on, "for each bit j from 0, bit wire times 2^j, then add the running
    /// sum and it; test the last sum".
    fn add_bits(&mut self, start: u16, bits: &[u16]) {
        let last = bits.iter().zip(0u32..).fold(start, |running, (&wire, j)| {
            let term = self.make(Step::Scale(wire, 1 << j));
            self.make(Step::Add(running, term))
        });
        self.steps.push(Step::Test(last));
    }

    /// "A bit check of entry e: entry e; add it and wire 0; multiply the entry wire by
    /// that sum; test the product." Gives the entry wire.
    fn bit_check(&mut self, entry: u16, minus_one: u16) -> u16 {
        let bit = self.make(Step::Entry(entry));
        let less_one = self.make(Step::Add(bit, minus_one));
        let product = self.make(Step::Multiply(bit, less_one));
        self.steps.push(Step::Test(product));
        bit
    }
}
