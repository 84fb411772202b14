//! Making a return in the fast form.

use super::arithmetic::{dot, mul, strict};
use super::columns::product_gates;
use super::constants::{weights, TABLES};
use crate::field::{self, P};
use crate::making::{check, header, Order};
use crate::sheet::Column;

/// Makes a return: the S share messages one after another in server order. Order of
/// refusals: sheet, S, 5, 6, 14.
pub fn make(
    sheet: &[u8],
    servers: u32,
    id: u32,
    values: &[u8],
    random: &[u8],
    room: usize,
) -> Result<Vec<u8>, u32> {
    let order = check(sheet, servers, values, random, room)?;
    let (free, shares) = random.split_at(4 * field::WIDTH);
    let whole = whole(&order, free);
    let mut out = Vec::with_capacity(servers as usize * order.sheet.share_length());
    split(id, &whole, shares, &mut out);
    Ok(out)
}

/// Splits a whole return. `shares` holds the bytes of the whole shares of servers 1 to S - 1.
fn split(id: u32, whole: &[u64], shares: &[u8], out: &mut Vec<u8>) {
    let shares = shares.chunks_exact(field::WIDTH * whole.len());
    let mut taken = vec![0u64; whole.len()];
    for share in shares.clone() {
        for (sum, element) in taken.iter_mut().zip(field::words(share)) {
            *sum += u64::from(element);
        }
    }
    remainder(id, whole, &taken, out);
    for (server, share) in (1u8..).zip(shares) {
        out.extend_from_slice(&header(id, server));
        out.extend_from_slice(share);
    }
}

/// Writes server 0's message: its share is what remains of the whole. `taken` are sums of at most
/// 7 elements each.
pub(super) fn remainder(id: u32, whole: &[u64], taken: &[u64], out: &mut Vec<u8>) {
    out.extend_from_slice(&header(id, 0));
    for (&all, &taken) in whole.iter().zip(taken) {
        let remains = strict(all + 7 * P - taken) as u32;
        out.extend_from_slice(&remains.to_le_bytes());
    }
}

/// u_0 and the first inputs times their weights, backwards, so that both runs of an inner product
/// with inverses go forwards.
fn terms(order: &Order, u0: u64, weights: &[u64]) -> Vec<u64> {
    let mut terms = Vec::with_capacity(weights.len());
    terms.push(u0);
    let mut rest = &order.entries[..];
    for column in order.sheet.columns() {
        let (own, next) = rest.split_at(column.entries());
        rest = next;
        if let Column::Point(_) = column {
            // The bit checks, then x × x and x × y.
            terms.extend_from_slice(&own[4..]);
            terms.extend([own[0]; 2]);
        } else {
            terms.extend_from_slice(&own[own.len() - column.multiplications()..]);
        }
    }
    for (term, &weight) in terms.iter_mut().zip(weights) {
        *term = mul(*term, weight);
    }
    terms.reverse();
    terms
}

/// The whole return, loose: the entries, f(0), g(0), h(0)..h(2M), a, b, c. `free` holds the
/// bytes of u_0, v_0, a, b.
pub(super) fn whole(order: &Order, free: &[u8]) -> Vec<u64> {
    let gates = order.sheet.multiplications();
    let mut free = field::words(free).map(u64::from);
    let [u0, v0, a, b] = std::array::from_fn(|_| free.next().unwrap_or(0));

    let weights = weights(gates);
    let apart = |u: u64, v: u64, point: usize| mul(weights[point], strict(v + P - u + 1));
    let mut past = Past {
        terms: terms(order, u0, &weights),
        at_zero: apart(u0, v0, 0),
        others: Vec::new(),
    };
    let mut whole = Vec::with_capacity(order.sheet.share_elements());
    whole.extend_from_slice(&order.entries);
    whole.extend([u0, v0, mul(u0, v0)]);
    // A bit check has the output 0 on a valid list.
    let outputs = whole.len();
    whole.resize(outputs + gates, 0);
    for product in product_gates(&order.sheet) {
        let [u, v] = [product.left, product.right].map(|entry| order.entries[entry]);
        whole[outputs + product.gate - 1] = mul(u, v);
        let far = apart(u, v, product.gate);
        past.others.push((product.gate, far));
    }
    whole.extend((gates + 1..=2 * gates).map(|k| past.h(gates, k)));
    whole.extend([a, b, mul(a, b)]);
    whole
}

/// What h past the points 0..M is worked out from. Multiplication t has inputs u_t and v_t, with
/// v_t = u_t - 1 in a bit check. For k past M
///   f(k) = P_k × sum over j of w_j u_j / (k - j),  P_k = k (k - 1) ... (k - M),
///   g(k) = f(k) - 1 + P_k × sum over j of w_j (v_j - u_j + 1) / (k - j).
struct Past {
    /// w_j u_j, backwards.
    terms: Vec<u64>,
    /// w_j (v_j - u_j + 1) at the point 0.
    at_zero: u64,
    /// The same at multiplications that are no bit checks, with j; at bit checks it is 0.
    others: Vec<(usize, u64)>,
}

impl Past {
    /// h(k), loose.
    #[inline(always)]
    fn h(&self, gates: usize, k: usize) -> u64 {
        let product = mul(
            TABLES.factorials[k],
            TABLES.inverse_factorials[k - gates - 1],
        );
        let sum = strict(dot(&self.terms, &TABLES.inverses[k - gates..=k]));
        let f = mul(product, sum);
        let mut g = f + P - 1 + mul(mul(product, self.at_zero), TABLES.inverses[k]);
        if !self.others.is_empty() {
            let others = self.others.iter();
            let terms = others.map(|&(j, term)| mul(term, TABLES.inverses[k - j]));
            g += mul(product, strict(terms.sum()));
        }
        mul(f, strict(g))
    }
}
