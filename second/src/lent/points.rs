//! Interpolation with no weights kept: sums over points, many at a time.
//!
//! f, g and h at r are sums over the points j of weight × value × product of r - k over the
//! other points k. A lane goes over some of the points and keeps the sum and the product so
//! far: with the next point j, the sum becomes sum × (r - j) + weight × value × product, the
//! product becomes product × (r - j). Lanes do not wait for one another and are joined at the
//! end.
//!
//! The weight of j for degree n is (-1)^(n - j) / (j! (n - j)!).

use super::layout::{value, Word};
use crate::fast::arithmetic::{fold, mul, negate, product, strict};
use crate::fast::constants::{tables, LAST_POINT, TABLES};

/// Enough that the compiler makes vectors of them.
const LANES: usize = 8;

/// Signed inverse factorials, and products of factorials.
pub(super) struct Constants {
    /// (-1)^i / i! at the place LAST_POINT - i, so that it is read forwards where i falls.
    signed: [u64; LAST_POINT + 1],
    /// 1! × 2! × ... × n!.
    pub products: [u64; LAST_POINT + 1],
    /// Their inverses.
    pub inverse_products: [u64; LAST_POINT + 1],
}

pub(super) static CONSTANTS: Constants = constants();

const fn constants() -> Constants {
    let tables = tables();
    let mut constants = Constants {
        signed: [1; LAST_POINT + 1],
        products: [1; LAST_POINT + 1],
        inverse_products: [1; LAST_POINT + 1],
    };
    let mut n = 1;
    while n <= LAST_POINT {
        let (factorial, inverse) = (tables.factorials[n], tables.inverse_factorials[n]);
        let signed = if n % 2 == 1 { negate(inverse) } else { inverse };
        constants.signed[LAST_POINT - n] = signed;
        constants.products[n] = strict(mul(constants.products[n - 1], factorial));
        constants.inverse_products[n] = strict(mul(constants.inverse_products[n - 1], inverse));
        n += 1;
    }
    constants
}

/// (-1)^i / i! for i from `high` down.
pub(super) fn signed(high: usize) -> &'static [u64] {
    &CONSTANTS.signed[LAST_POINT - high..]
}

/// The product of strict elements, folded once: at most 2^32 - 5.
fn half_mul(a: u64, b: u64) -> u64 {
    fold(product(a, b))
}

/// a × b + c × d for a at most p + 4, d at most p + 2, b and c at most 2^32 - 5: the sum is
/// below 2^64 and, folded twice, at most p + 4.
fn mul_mul(a: u64, b: u64, c: u64, d: u64) -> u64 {
    fold(fold(product(a, b) + product(c, d)))
}

/// What each lane has so far: N sums of weight × value × product over the other points, and
/// the product over all points.
pub(super) struct Run<const N: usize> {
    sums: [[u64; LANES]; N],
    product: [u64; LANES],
}

impl<const N: usize> Run<N> {
    /// Goes over the points from `start`, as many as there are values; r is past them. `signed`
    /// has the weights without 1/j!, and the factors r - j are taken j! times: sums and product
    /// are as many times too large.
    pub fn over(
        r: u64,
        start: usize,
        values: [&[Word]; N],
        signed: [&[u64]; N],
    ) -> ([u64; N], u64) {
        let mut run = Run {
            sums: [[0; LANES]; N],
            product: [1; LANES],
        };
        let count = values[0].len();
        let mut done = 0;
        while count - done >= LANES {
            run.step(r, start, values, signed, done, LANES);
            done += LANES;
        }
        run.step(r, start, values, signed, done, count - done);
        run.joined(count)
    }

    /// The next point of so many lanes.
    #[inline(always)]
    fn step(
        &mut self,
        r: u64,
        start: usize,
        values: [&[Word]; N],
        signed: [&[u64]; N],
        done: usize,
        count: usize,
    ) {
        let values = values.map(|values| &values[done..][..count]);
        let signed = signed.map(|signed| &signed[done..][..count]);
        let scale = &TABLES.factorials[start + done..][..count];
        let next = r - (start + done) as u64;
        for i in 0..count {
            let factor = half_mul(next - i as u64, scale[i]);
            for n in 0..N {
                let term = half_mul(value(values[n][i]), signed[n][i]);
                self.sums[n][i] = mul_mul(self.sums[n][i], factor, term, self.product[i]);
            }
            self.product[i] = mul(self.product[i], factor);
        }
    }

    /// Joins so many lanes, at least one; gives the sums and the product over all points.
    fn joined(mut self, lanes: usize) -> ([u64; N], u64) {
        let mut lanes = lanes.min(LANES);
        while lanes > 1 {
            // The upper half meets the lower one; with an odd number the middle lane stays.
            let half = lanes / 2;
            lanes -= half;
            for i in 0..half {
                let (own, other) = (self.product[i], self.product[lanes + i]);
                for sums in &mut self.sums {
                    sums[i] = mul_mul(sums[i], other, sums[lanes + i], own);
                }
                self.product[i] = mul(own, other);
            }
        }
        (self.sums.map(|sums| sums[0]), self.product[0])
    }
}

#[cfg(test)]
mod tests {
    use super::*;
    use crate::field::{self, P};
    use crate::judging::basis;

    #[test]
    fn constants_of_factorials() {
        let mut product = 1;
        for n in 0..=LAST_POINT {
            product = field::mul(product, TABLES.factorials[n]);
            assert_eq!(CONSTANTS.products[n], product);
            assert_eq!(field::mul(CONSTANTS.inverse_products[n], product), 1);
            let weight = field::mul(signed(n)[0], TABLES.factorials[n]);
            assert_eq!(weight, if n % 2 == 0 { 1 } else { P - 1 });
        }
    }

    #[test]
    fn half_products_at_the_edges() {
        let samples = [0, 1, 1 << 30, P - 2, P - 1];
        for a in samples {
            for b in samples {
                assert!(half_mul(a, b) <= (1 << 32) - 5);
                assert_eq!(half_mul(a, b) % P, a * b % P);
            }
        }
        let (wide, loose) = ((1 << 32) - 5, P + 4);
        for a in [0, P - 1, P, loose] {
            for b in [0, 1, P - 1, 1 << 31, wide] {
                let exact = (u128::from(a * b) + u128::from(wide * (P + 2))) % u128::from(P);
                let sum = mul_mul(a, b, wide, P + 2);
                assert!(sum <= loose);
                assert_eq!(u128::from(sum % P), exact);
            }
        }
    }

    /// The points 1..M are those of the basis but for the point 0, whose value is 0.
    #[test]
    fn sums_are_those_of_the_basis() {
        for count in (1..40).chain([63, 64, 65]) {
            let numbers = (1..=count as u64).map(|t| P - t * t * t);
            let words: Vec<Word> = numbers.map(field::bytes).collect();
            let n = count as u64;
            for r in [n + 1, 2 * n + 1, 12_345_678, P - 1] {
                let ([sum], all) = Run::over(r, 1, [&words], [signed(count - 1)]);
                let unscale = CONSTANTS.inverse_products[count];
                let terms = basis(n, r).into_iter().skip(1).zip(&words);
                let expected = field::sum(terms.map(|(b, &word)| field::mul(b, value(word))));
                assert_eq!(strict(mul(mul(sum, unscale), r)), expected);
                let product = (1..=n).fold(1, |product, t| field::mul(product, r - t));
                assert_eq!(strict(mul(all, unscale)), product);
            }
        }
    }
}
