//! Factorials, inverses and the weights of interpolation.

use super::arithmetic::{mul, negate, strict};
use crate::field::P;

/// The largest interpolation point, 2M for M = 256.
pub(crate) const LAST_POINT: usize = 512;

/// 0!, 1!, ... and their inverses, and the inverses of 1, 2, ..., all modulo p. Number 0
/// of `inverses` is not used.
pub(crate) struct Tables {
    pub factorials: [u64; LAST_POINT + 1],
    pub inverse_factorials: [u64; LAST_POINT + 1],
    pub inverses: [u64; LAST_POINT + 1],
}

pub(crate) static TABLES: Tables = tables();

pub(crate) const fn tables() -> Tables {
    let mut tables = Tables {
        factorials: [1; LAST_POINT + 1],
        inverse_factorials: [1; LAST_POINT + 1],
        inverses: [1; LAST_POINT + 1],
    };
    let mut n = 2;
    while n <= LAST_POINT {
        // p = q n + m gives 1/n = -q/m.
        let (q, m) = (P / n as u64, P as usize % n);
        tables.inverses[n] = negate(mul(q, tables.inverses[m]));
        tables.factorials[n] = strict(mul(tables.factorials[n - 1], n as u64));
        tables.inverse_factorials[n] =
            strict(mul(tables.inverse_factorials[n - 1], tables.inverses[n]));
        n += 1;
    }
    tables
}

/// The weights of the points 0..=degree: number j is the inverse of the product of
/// (j - k) over all k other than j, that is (-1)^(degree - j) / (j! (degree - j)!).
pub(super) fn weights(degree: usize) -> Vec<u64> {
    (0..=degree)
        .map(|j| {
            let inverses = &TABLES.inverse_factorials;
            let weight = mul(inverses[j], inverses[degree - j]);
            if (degree - j) % 2 == 1 {
                negate(weight)
            } else {
                strict(weight)
            }
        })
        .collect()
}

#[cfg(test)]
mod tests {
    use super::*;
    use crate::field;

    #[test]
    fn tables_hold_inverses() {
        for n in 1..=LAST_POINT {
            assert_eq!(field::mul(n as u64, TABLES.inverses[n]), 1);
            assert_eq!(
                field::mul(TABLES.factorials[n], TABLES.inverse_factorials[n]),
                1
            );
            assert_eq!(
                TABLES.factorials[n],
                field::mul(TABLES.factorials[n - 1], n as u64)
            );
        }
        assert_eq!((TABLES.factorials[0], TABLES.inverse_factorials[0]), (1, 1));
    }
}
