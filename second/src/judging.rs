//! "Judging": what one server works out from its share, and the round messages.

mod rounds;

use crate::circuit::Circuit;
use crate::field::{self, P};
use crate::making::{combine, points, SHARE};
use crate::refusal;
use crate::seeds::{SEED, SEED_LENGTH};
use crate::sheet::Sheet;

pub(crate) use rounds::{
    round_one_message, round_one_sums, round_two_message, round_two_sums, CHALLENGES, ELEMENTS,
    SERVER,
};
pub use rounds::{ROUND_ONE, ROUND_ONE_LENGTH, ROUND_TWO, ROUND_TWO_LENGTH};

/// The Lagrange basis for the points 0..=degree at x: number j is the product of
/// (x - k) / (j - k) over all k other than j. No quotient by x - k is formed, so x may
/// be one of the points.
pub(crate) fn basis(degree: u64, x: u64) -> Vec<u64> {
    (0..=degree)
        .map(|j| {
            let mut above = 1;
            let mut below = 1;
            for k in (0..=degree).filter(|&k| k != j) {
                above = field::mul(above, field::sub(x, k));
                below = field::mul(below, field::sub(j, k));
            }
            field::mul(above, field::inverse(below))
        })
        .collect()
}

/// What a share message holds, "shown as that part of the message it was given, not copied".
#[derive(Clone, Copy, Debug, PartialEq, Eq)]
pub enum Held<'a> {
    /// The bytes of elements.
    Elements(&'a [u8]),
    /// The seed that they come from.
    Seed(&'a [u8; SEED_LENGTH]),
}

/// Checks a share message's header (refusal 7: wrong kind byte, length or server). Gives
/// the id and what the message holds.
pub fn share_parts<'a>(sheet: &Sheet, own: u32, message: &'a [u8]) -> Result<(u32, Held<'a>), u32> {
    parts_of_length(sheet.share_length(), own, message)
}

/// The same for the length that the sheet asks for.
pub(crate) fn parts_of_length(
    length: usize,
    own: u32,
    message: &[u8],
) -> Result<(u32, Held<'_>), u32> {
    let [kind, i0, i1, i2, i3, server, rest @ ..] = message else {
        return Err(refusal::SHARE);
    };
    let held = match *kind {
        SHARE if message.len() == length => Some(Held::Elements(rest)),
        // "Servers 1 to S - 1 may get a seed." "A seed message for server 0 is refused 7."
        SEED if own != 0 => rest.try_into().ok().map(Held::Seed),
        _ => None,
    };
    let held = held.filter(|_| u32::from(*server) == own);
    let id = u32::from_le_bytes([*i0, *i1, *i2, *i3]);
    Ok((id, held.ok_or(refusal::SHARE)?))
}

/// The parts of a share (or of a whole return) of L + 2M + 6 elements.
pub(crate) struct Parts<'a> {
    pub entries: &'a [u64],
    pub f0: u64,
    pub g0: u64,
    /// h(0)..h(2M).
    pub h: &'a [u64],
    pub a: u64,
    pub b: u64,
    pub c: u64,
}

impl<'a> Parts<'a> {
    /// Takes L + 2M + 6 elements apart.
    pub fn of(circuit: &Circuit, elements: &'a [u64]) -> Parts<'a> {
        let (entries, rest) = elements.split_at(circuit.entries());
        let (free, rest) = rest.split_at(2);
        let (h, triple) = rest.split_at(2 * circuit.multiplications() + 1);
        Parts {
            entries,
            f0: free[0],
            g0: free[1],
            h,
            a: triple[0],
            b: triple[1],
            c: triple[2],
        }
    }
}

/// What server i finds when it has its share, r and s.
#[derive(Clone, Debug, PartialEq, Eq)]
pub(crate) struct Findings {
    /// f_i(r) - a_i.
    pub d: u64,
    /// r × g_i(r) - b_i.
    pub e: u64,
    /// r × h_i(r).
    pub rh: u64,
    pub a: u64,
    pub b: u64,
    pub c: u64,
    pub tau: u64,
}

/// Works on the share of one server; `first` tells whether it is server 0.
pub(crate) fn find(circuit: &Circuit, first: bool, elements: &[u64], r: u64, s: u64) -> Findings {
    let share = Parts::of(circuit, elements);
    // "Gate outputs are its shares of h(1)..h(M) ... Only server 0 adds constants."
    let run = circuit.run(share.entries, first, |t, _, _| share.h[t]);

    // "It finds its shares of f, g and h at r."
    let gates = circuit.multiplications() as u64;
    let short = basis(gates, r);
    let f = combine(&short, &points(share.f0, &run.left));
    let g = combine(&short, &points(share.g0, &run.right));
    let h = combine(&basis(2 * gates, r), share.h);

    // "tau_i is the sum of s^k times test wire k, k from 0, with s^0 = 1 also for s = 0."
    let mut power = 1;
    let mut tau = 0;
    for &wire in &run.tests {
        tau = field::add(tau, field::mul(power, wire));
        power = field::mul(power, s);
    }

    Findings {
        d: field::sub(f, share.a),
        e: field::sub(field::mul(r, g), share.b),
        rh: field::mul(r, h),
        a: share.a,
        b: share.b,
        c: share.c,
        tau,
    }
}

/// sigma_i = d × b_i + e × a_i + c_i - r × h_i(r), plus d × e at server 0.
pub(crate) fn sigma(findings: &Findings, first: bool, d: u64, e: u64) -> u64 {
    let own = field::sum([
        field::mul(d, findings.b),
        field::mul(e, findings.a),
        findings.c,
    ]);
    let own = field::sub(own, findings.rh);
    if first {
        field::add(own, field::mul(d, e))
    } else {
        own
    }
}

/// "Challenges: r from M + 1 to p - 1, s from 0 to p - 1" (refusal 9).
pub(crate) fn check_challenges(gates: usize, r: u64, s: u64) -> Result<(), u32> {
    if r > gates as u64 && r < P && s < P {
        Ok(())
    } else {
        Err(refusal::CHALLENGE)
    }
}

#[cfg(test)]
mod tests {
    use super::*;

    /// A polynomial by its coefficients, lowest first.
    fn evaluate(coefficients: &[u64], x: u64) -> u64 {
        coefficients
            .iter()
            .rev()
            .fold(0, |value, &c| field::add(field::mul(value, x), c))
    }

    #[test]
    fn interpolation_meets_every_polynomial() {
        let coefficients = [5, P - 7, 1 << 30, 12_345, 0, P - 1];
        let values: Vec<u64> = (0..6).map(|x| evaluate(&coefficients, x)).collect();
        for x in [0, 3, 5, 6, 7, 1000, P / 2, P - 1] {
            assert_eq!(
                combine(&basis(5, x), &values),
                evaluate(&coefficients, x),
                "at {x}"
            );
        }
    }

    #[test]
    fn basis_at_a_point_is_a_unit_vector() {
        for x in 0..=8 {
            let expected: Vec<u64> = (0..=8).map(|j| u64::from(j == x)).collect();
            assert_eq!(basis(8, x), expected);
        }
    }
}
