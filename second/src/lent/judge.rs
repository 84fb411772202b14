//! What a server finds on a share in the lent form.

use super::layout::{value, Word};
use super::points::{signed, Run, CONSTANTS};
use super::shape::Shape;
use super::walk::Walk;
use crate::fast::arithmetic::{fold, mul, negate, powers_sum, strict};
use crate::field::P;
use crate::judging::Findings;
use crate::sheet::MAX_MULTIPLICATIONS;

/// What the server finds on L + 2M + 6 elements below p; r is from M + 1 to p - 1 and s below
/// p.
#[inline(always)]
pub(super) fn find(
    sheet: &[u8],
    shape: &Shape,
    first: bool,
    elements: &[Word],
    r: u64,
    s: u64,
) -> Findings {
    let (entries, rest) = elements.split_at(shape.entries);
    let outputs = &rest[3..][..shape.gates];
    let mut walk = Walk {
        sheet,
        minus_one: if first { P - 1 } else { 0 },
        entries,
        outputs,
    };
    let mut gathered = [[0; 4]; MAX_MULTIPLICATIONS as usize];
    if shape.points {
        let mut apart = gathered;
        let tau = walk.gather_points(shape, s, &mut gathered, &mut apart);
        let left = &gathered[..shape.gates];
        let apart = Some(&apart[..shape.gates]);
        return find_with(shape.gates, first, Inputs { left, apart }, rest, r, tau);
    }
    let (left, tau) = if shape.entries == shape.gates {
        // Without numbers, each entry is an input. With yes/no columns alone, each output is a
        // test and there are no others.
        let tau = if shape.tests == shape.gates {
            powers_sum(outputs, s, value)
        } else {
            walk.tau::<false>(shape, s, |_, _| {})
        };
        (entries, tau)
    } else {
        let tau = walk.gather(shape, s, &mut gathered);
        (&gathered[..shape.gates], tau)
    };
    let apart = None;
    find_with(shape.gates, first, Inputs { left, apart }, rest, r, tau)
}

/// The inputs of the multiplications.
#[derive(Clone, Copy)]
struct Inputs<'a> {
    /// The first inputs.
    left: &'a [Word],
    /// How far the second inputs are from those of bit checks, which are the first inputs and
    /// wire 0; `None` where all are bit checks.
    apart: Option<&'a [Word]>,
}

impl Inputs<'_> {
    /// The sums over the points 1..M for the first inputs, for the outputs and for how far the
    /// second inputs are, and the product of r - 1, ..., r - M.
    #[inline(always)]
    fn low_sums(self, r: u64, outputs: &[Word]) -> ([u64; 3], u64) {
        let gates = outputs.len();
        match self.apart {
            None => {
                let degrees = [gates, 2 * gates];
                let ([inputs, outputs], others) = low_points(r, [self.left, outputs], degrees);
                ([inputs, outputs, 0], others)
            }
            Some(apart) => low_points(r, [self.left, outputs, apart], [gates, 2 * gates, gates]),
        }
    }
}

/// The same once the inputs and tau are known. `rest` holds f(0), g(0), h(0)..h(2M), a, b, c.
#[inline(always)]
fn find_with(
    gates: usize,
    first: bool,
    inputs: Inputs,
    rest: &[Word],
    r: u64,
    tau: u64,
) -> Findings {
    let (h_values, triple) = rest[2..].split_at(2 * gates + 1);
    let [f0, g0] = std::array::from_fn(|i| value(rest[i]));
    let [a, b, c] = std::array::from_fn(|i| value(triple[i]));
    let ([inputs_sum, low_sum, apart_sum], others) = inputs.low_sums(r, &h_values[1..=gates]);

    // The basis at 0, of f and g. A bit check has inputs x and x - 1, with the constant at
    // server 0 only, and the basis adds up to 1.
    let at_zero = mul(others, signed(gates)[0]);
    let f = inputs_sum + mul(at_zero, f0);
    let constants = if first { 1 + negate(at_zero) } else { 0 };
    let g = strict(inputs_sum + apart_sum + mul(at_zero, g0) + P - constants);
    let h = match h_values.get(r as usize) {
        // r is one of the points of h.
        Some(&h) => value(h),
        None => {
            let zero = mul(mul(others, signed(2 * gates)[0]), value(h_values[0]));
            with_high(r, &h_values[gates + 1..], low_sum + zero, mul(others, r))
        }
    };
    Findings {
        d: strict(f + P - a),
        e: strict(mul(r, g) + P - b),
        rh: strict(mul(r, h)),
        a,
        b,
        c,
        tau: strict(tau),
    }
}

/// The points 1..M: the sums for runs of values of such degrees (M for inputs, 2M for outputs)
/// among the points 0..M, and the product of r - 1, ..., r - M.
#[inline(always)]
fn low_points<const N: usize>(
    r: u64,
    values: [&[Word]; N],
    degrees: [usize; N],
) -> ([u64; N], u64) {
    let gates = values[0].len();
    let weights = degrees.map(|degree| signed(degree - 1));
    let (sums, product) = Run::over(r, 1, values, weights);
    let unscale = CONSTANTS.inverse_products[gates];
    let sums = sums.map(|sum| mul(mul(sum, unscale), r));
    (sums, mul(product, unscale))
}

/// h(r), loose, from the values at the points M + 1..2M and from the sum and the product over
/// the points 0..M; r is past all points.
fn with_high(r: u64, values: &[Word], low_sum: u64, low_product: u64) -> u64 {
    let gates = values.len();
    let ([sum], product) = Run::over(r, gates + 1, [values], [signed(gates - 1)]);
    let (above, below) = (
        CONSTANTS.products[gates],
        CONSTANTS.inverse_products[2 * gates],
    );
    let joined = mul(fold(low_sum), product) + mul(low_product, sum);
    mul(fold(joined), mul(above, below))
}
