//! The arithmetic of the fast and the lent form.
//!
//! It works on loose elements: numbers below 2^31 + 2^9, each of which stands for its
//! remainder by p = 2^31 - 1. Strict elements are below p. Both are kept in 64 bits, which
//! saves widening them before a product.

use crate::field::P;

/// The product as a 64-bit number. The masks change nothing on loose elements; they tell
/// the compiler that a 32-bit multiplication is enough.
#[inline]
pub(crate) const fn product(a: u64, b: u64) -> u64 {
    const LOW: u64 = 0xFFFF_FFFF;
    (a & LOW) * (b & LOW)
}

/// Adds the part above 2^31 to the part below: the same modulo p. The result is below 2^34,
/// so that many can be added before a reduction.
#[inline]
pub(crate) const fn fold(x: u64) -> u64 {
    (x & P) + (x >> 31)
}

/// a × b, loose. The product is below 2^62 + 2^42; folded once it is below 2^32 + 2^12,
/// folded twice at most p + 2.
#[inline]
pub(crate) const fn mul(a: u64, b: u64) -> u64 {
    fold(fold(product(a, b)))
}

/// a × b + c, loose, for the same reason.
#[inline]
pub(crate) const fn mul_add(a: u64, b: u64, c: u64) -> u64 {
    fold(fold(product(a, b) + c))
}

/// The strict element that any number stands for.
#[inline]
pub(crate) const fn strict(x: u64) -> u64 {
    x % P
}

/// The strict element opposite to a loose one.
#[inline]
pub(crate) const fn negate(x: u64) -> u64 {
    strict(2 * P - x)
}

/// The sum of a_i × b_i, folded but not reduced, for a at most p + 2 and b strict: each
/// product is below 2^62, so that four of them fit into 64 bits.
pub(super) fn dot(a: &[u64], b: &[u64]) -> u64 {
    const LANES: usize = 4;
    let (a_chunks, a_rest) = a.as_chunks::<{ 4 * LANES }>();
    let (b_chunks, b_rest) = b.as_chunks::<{ 4 * LANES }>();
    let mut lanes = [0; LANES];
    for (a, b) in a_chunks.iter().zip(b_chunks) {
        for (i, lane) in lanes.iter_mut().enumerate() {
            let four = product(a[i], b[i])
                + product(a[i + LANES], b[i + LANES])
                + product(a[i + 2 * LANES], b[i + 2 * LANES])
                + product(a[i + 3 * LANES], b[i + 3 * LANES]);
            *lane += fold(four);
        }
    }
    let rest = a_rest.iter().zip(b_rest);
    let rest: u64 = rest.map(|(&a, &b)| fold(product(a, b))).sum();
    lanes.iter().sum::<u64>() + rest
}

/// The sum of s^k times test wire k, loose; `value` tells what stands for a wire. Every 32nd
/// wire makes a run; the runs do not wait for one another.
pub(crate) fn powers_sum<T: Copy>(tests: &[T], s: u64, value: impl Fn(T) -> u64) -> u64 {
    const RUNS: usize = 32;
    const FEW: usize = 8;
    if tests.len() <= FEW {
        let wires = tests.iter().rev();
        return wires.fold(0, |sum, &wire| mul_add(sum, s, value(wire)));
    }
    // s to the powers 1, 2, 4, 8, 16, 32.
    let mut powers = [s; 6];
    for i in 1..powers.len() {
        powers[i] = mul(powers[i - 1], powers[i - 1]);
    }
    let [squares @ .., step] = powers;
    let (chunks, rest) = tests.as_chunks::<RUNS>();
    let mut runs = [0; RUNS];
    for (run, &wire) in runs.iter_mut().zip(rest) {
        *run = value(wire);
    }
    for chunk in chunks.iter().rev() {
        for (run, &wire) in runs.iter_mut().zip(chunk) {
            *run = mul_add(*run, step, value(wire));
        }
    }
    // The upper half of the runs meets the lower one, until one is left.
    let mut half = RUNS;
    for power in squares.into_iter().rev() {
        half /= 2;
        let (lower, upper) = runs.split_at_mut(half);
        for (run, &other) in lower.iter_mut().zip(&*upper) {
            *run = mul_add(other, power, *run);
        }
    }
    runs[0]
}

#[cfg(test)]
mod tests {
    use super::*;
    use crate::field;

    #[test]
    fn loose_arithmetic_at_the_edges() {
        let last = (1 << 31) + (1 << 9) - 1;
        let samples = [0, 1, 2, 1 << 30, P / 2, P - 2, P - 1, P, P + 1, P + 2, last];
        for a in samples {
            assert_eq!(field::add(negate(a), a % P), 0);
            for b in samples {
                assert!(mul(a, b) <= P + 2);
                assert_eq!(strict(mul(a, b)), a * b % P);
                for c in samples {
                    assert!(mul_add(a, b, c) <= P + 2);
                    assert_eq!(strict(mul_add(a, b, c)), (a * b + c) % P);
                }
            }
        }
    }

    #[test]
    fn inner_products_of_every_length() {
        for length in 0..70u64 {
            let (a, b) = (vec![P + 2; length as usize], vec![P - 1; length as usize]);
            assert_eq!(strict(dot(&a, &b)), field::mul(length, P - 2));
            let a: Vec<u64> = (0..length).map(|i| P - 1 - i * i).collect();
            let b: Vec<u64> = (0..length).map(|i| P - 2 - 5 * i).collect();
            let expected = field::sum(a.iter().zip(&b).map(|(&a, &b)| field::mul(a, b)));
            assert_eq!(strict(dot(&a, &b)), expected);
        }
    }

    #[test]
    fn powers_of_every_length() {
        for length in 0..140u64 {
            let tests: Vec<u64> = (0..length).map(|k| P - 1 - k * k).collect();
            for s in [0, 1, 2, 12_345_678, P - 1] {
                let terms = tests.iter().zip(0..);
                let expected =
                    field::sum(terms.map(|(&wire, k)| field::mul(wire, field::pow(s, k))));
                assert_eq!(strict(powers_sum(&tests, s, |wire| wire)), expected);
            }
        }
    }
}
