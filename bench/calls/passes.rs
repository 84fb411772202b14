// Passes of the bare arithmetic that the library does without: descending products, running products and inverses.
// As in field/loops.rs each answers 0, or 1 where its arguments do not fit.
use crate::loops::{fold, mul, reduce, sub, P};

fn times(a: u32, x: u32) -> u32 {
    reduce(fold(a as u64 * fold(x as u64)))
}

// out[j] = (x - (j + 1)) .. (x - (n - 1)), where n is the length of out.
#[inline(never)]
pub fn descending(x: u32, out: &mut [u32]) -> u32 {
    if x >= P || out.len() > P as usize {
        return 1;
    }
    let mut acc = 1;
    for (j, o) in out.iter_mut().enumerate().rev() {
        *o = acc;
        acc = mul(sub(x, j as u32), acc);
    }
    0
}

// out[j] = xs[0] .. xs[j - 1]
#[inline(never)]
pub fn running_products(xs: &[u32], out: &mut [u32]) -> u32 {
    if out.len() > xs.len() + 1 {
        return 1;
    }
    let mut acc = 1;
    if let Some((last, front)) = out.split_last_mut() {
        for (o, &x) in front.iter_mut().zip(xs) {
            *o = acc;
            acc = times(acc, x);
        }
        *last = acc;
    }
    0
}

// out[i] = 1 / (i + 1). From P = (P / a) a + P % a, the inverse of a is that of P % a, times - (P / a).
#[inline(never)]
pub fn inverses(out: &mut [u32]) -> u32 {
    if out.len() >= P as usize {
        return 1;
    }
    if out.is_empty() {
        return 0;
    }
    out[0] = 1;
    for i in 1..out.len() {
        let a = i as u32 + 1;
        out[i] = mul(P - P / a, out[(P % a) as usize - 1]);
    }
    0
}
