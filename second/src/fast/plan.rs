//! A server's work on a share in the fast form.

use super::arithmetic::{fold, mul, negate, powers_sum, product, strict};
use super::columns::{gate_entries, groups, product_gates, test_wires, Group, Product};
use super::constants::weights;
use super::seeds::fill;
use crate::field::{self, P};
use crate::judging::Findings;
use crate::seeds::SEED_LENGTH;
use crate::sheet::Sheet;
use crate::table::{Form, Worked};

/// What is fixed at opening, and scratch space.
///
/// The points 0..2M of h are taken in two halves, the low points 0..M and the high points
/// M + 1..2M. The product over all points but j is then the product over the rest of j's
/// half times that over the whole other half, and the latter can wait until the half's
/// inner product is done. The low half serves f and g too.
#[derive(Clone, Debug)]
pub struct Plan {
    entries: usize,
    gates: usize,
    groups: Vec<Group>,
    /// The entry of each multiplication's first input.
    gate_entries: Vec<u16>,
    /// The multiplications that are no bit checks.
    product_gates: Vec<Product>,
    published_entries: Vec<u16>,
    /// The weights of the points 0..M for f and g.
    short_weights: Vec<u64>,
    /// The weights of the points 0..2M for h, low and high half.
    low_weights: Vec<u64>,
    high_weights: Vec<u64>,

    /// The elements of the share.
    elements: Vec<u64>,
    /// A zero for the point 0, then the first input of each multiplication.
    inputs: Vec<u64>,
    /// Products over the points of the half that stand before and after each point.
    low_before: Vec<u64>,
    low_after: Vec<u64>,
    high_before: Vec<u64>,
    high_after: Vec<u64>,
    /// The test wires.
    tests: Vec<u64>,
}

impl Form for Plan {
    fn of(sheet: &Sheet) -> Plan {
        let gates = sheet.multiplications();
        let mut low_weights = weights(2 * gates);
        let high_weights = low_weights.split_off(gates + 1);
        Plan {
            entries: sheet.entries(),
            gates,
            groups: groups(sheet),
            gate_entries: gate_entries(sheet).iter().map(|&e| e as u16).collect(),
            product_gates: product_gates(sheet),
            published_entries: sheet.published_entries().map(|e| e as u16).collect(),
            short_weights: weights(gates),
            low_weights,
            high_weights,
            elements: Vec::with_capacity(sheet.share_elements()),
            inputs: Vec::with_capacity(gates + 1),
            low_before: vec![1; gates + 1],
            low_after: vec![1; gates + 1],
            high_before: vec![1; gates],
            high_after: vec![1; gates],
            tests: Vec::with_capacity(sheet.tests()),
        }
    }

    fn expand(&self, seed: &[u8; SEED_LENGTH], id: u32, count: usize) -> Vec<u8> {
        let mut words = vec![[0; field::WIDTH]; count];
        fill(seed, id, &mut words);
        words.into_flattened()
    }

    fn work(&mut self, _: &Sheet, first: bool, elements: &[u8], r: u64, s: u64) -> Worked {
        Worked {
            findings: self.find(first, elements, r, s),
            published: self.published(),
        }
    }
}

impl Plan {
    /// What the server finds; `bytes` are L + 2M + 6 elements below p, r is from M + 1 to
    /// p - 1 and s below p. Faster when it is not inlined, and its sums are.
    #[inline(never)]
    fn find(&mut self, first: bool, bytes: &[u8], r: u64, s: u64) -> Findings {
        self.elements.clear();
        self.elements.extend(field::words(bytes).map(u64::from));
        let (low, high) = self.products(r);

        let (entries, rest) = self.elements.split_at(self.entries);
        let (free, rest) = rest.split_at(2);
        let (h, triple) = rest.split_at(2 * self.gates + 1);
        let (low_h, high_h) = h.split_at(self.gates + 1);
        let (f0, g0) = (free[0], free[1]);
        let (a, b, c) = (triple[0], triple[1], triple[2]);

        self.inputs.clear();
        self.inputs.push(0);
        let gate_entries = self.gate_entries.iter();
        self.inputs
            .extend(gate_entries.map(|&entry| entries[usize::from(entry)]));
        let (inputs_sum, low_sum) = self.low_sums(low_h);
        let high_sum = self.high_sum(high_h);

        // The basis at 0, of f and g. A bit check has inputs x and x - 1, with the constant at
        // server 0 only, and the basis adds up to 1. Other multiplications differ from that.
        let at_zero = mul(self.low_after[0], self.short_weights[0]);
        let f = strict(inputs_sum + mul(at_zero, f0));
        let constants = if first { 1 + negate(at_zero) } else { 0 };
        let apart = self.apart(first, entries);
        let g = strict(inputs_sum + mul(at_zero, g0) + apart + P - constants);
        let h = strict(mul(high, strict(low_sum)) + mul(low, strict(high_sum)));

        test_wires(&mut self.tests, &self.groups, first, entries, &low_h[1..]);
        Findings {
            d: strict(f + P - a),
            e: strict(mul(r, g) + P - b),
            rh: strict(mul(r, h)),
            a,
            b,
            c,
            tau: strict(powers_sum(&self.tests, s, |wire| wire)),
        }
    }

    /// What the second inputs of multiplications that are no bit checks add to g: basis times
    /// how far they are from the first input and the constant.
    fn apart(&self, first: bool, entries: &[u64]) -> u64 {
        let one = u64::from(first);
        let terms = self.product_gates.iter().map(|product| {
            let j = product.gate;
            let basis = mul(
                mul(self.low_before[j], self.low_after[j]),
                self.short_weights[j],
            );
            mul(
                basis,
                strict(entries[product.right] + P - entries[product.left] + one),
            )
        });
        terms.sum()
    }

    /// The sums over the low points for the inputs and for h, without the high half's product.
    #[inline(always)]
    fn low_sums(&self, h: &[u64]) -> (u64, u64) {
        let mut inputs_sum = 0;
        let mut low_sum = 0;
        let products = self.low_before.iter().zip(&self.low_after);
        let weights = self.short_weights.iter().zip(&self.low_weights);
        let values = self.inputs.iter().zip(h);
        for (((&before, &after), (&short, &long)), (&input, &h)) in
            products.zip(weights).zip(values)
        {
            let others = mul(before, after);
            inputs_sum += fold(product(mul(others, short), input));
            low_sum += fold(product(mul(others, long), h));
        }
        (inputs_sum, low_sum)
    }

    /// The sum over the high points for h, without the low half's product.
    #[inline(always)]
    fn high_sum(&self, h: &[u64]) -> u64 {
        let mut high_sum = 0;
        let products = self.high_before.iter().zip(&self.high_after);
        let weights = self.high_weights.iter();
        for (((&before, &after), &weight), &h) in products.zip(weights).zip(h) {
            high_sum += fold(product(mul(mul(before, after), weight), h));
        }
        high_sum
    }

    /// Fills in the products of r - k before and after each point, in each half; gives the
    /// products over the whole low and the whole high half.
    fn products(&mut self, r: u64) -> (u64, u64) {
        let n = self.gates;
        // Four chains that do not wait for one another: forwards and backwards in each
        // half. The low half has one point more, M forwards and 0 backwards.
        let low_before = &mut self.low_before[..n];
        let low_after = &mut self.low_after[1..][..n];
        let high_before = &mut self.high_before[..n];
        let high_after = &mut self.high_after[..n];
        // r is past the low points, but may stand before or on a high one. The factors are
        // at most p + M.
        let m = n as u64;
        let r_high = if r > 2 * m { r } else { r + P };
        let mut factors = [r, r - m, r_high - (m + 1), r_high - 2 * m];
        let mut chains = [1; 4];
        for j in 0..n {
            low_before[j] = chains[0];
            low_after[n - 1 - j] = chains[1];
            high_before[j] = chains[2];
            high_after[n - 1 - j] = chains[3];
            for (chain, &factor) in chains.iter_mut().zip(&factors) {
                *chain = mul(*chain, factor);
            }
            for (factor, step) in factors.iter_mut().zip([u64::MAX, 1, u64::MAX, 1]) {
                *factor = factor.wrapping_add(step);
            }
        }
        self.low_before[n] = chains[0];
        self.low_after[0] = chains[1];
        (mul(chains[0], r - m), chains[2])
    }

    /// The published entries of the share that was read last.
    fn published(&self) -> Vec<u64> {
        let entries = self.published_entries.iter();
        entries
            .map(|&entry| self.elements[usize::from(entry)])
            .collect()
    }
}

#[cfg(test)]
mod tests {
    use super::*;
    use crate::judging::basis;

    #[test]
    fn products_and_weights_make_the_basis() {
        for gates in [1, 2, 3, 8, 40] {
            let mut plan = Plan::of(&Sheet::read(&vec![17; gates]).unwrap());
            let n = gates as u64;
            for r in [n + 1, n + 2, 2 * n, 2 * n + 1, 1 << 20, P - 2, P - 1] {
                let (low, high) = plan.products(r);
                let short = basis(n, r);
                let long = basis(2 * n, r);
                for j in 0..=gates {
                    let others = mul(plan.low_before[j], plan.low_after[j]);
                    assert_eq!(strict(mul(others, plan.short_weights[j])), short[j]);
                    let weighted = mul(others, plan.low_weights[j]);
                    assert_eq!(strict(mul(weighted, high)), long[j]);
                }
                for j in 0..gates {
                    let others = mul(plan.high_before[j], plan.high_after[j]);
                    let weighted = mul(others, plan.high_weights[j]);
                    assert_eq!(strict(mul(weighted, low)), long[gates + 1 + j]);
                }
            }
        }
    }
}
