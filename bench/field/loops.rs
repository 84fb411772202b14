// The kernels in Rust: the same loops, sums, products and reductions, and the same answers, 0 or 1. bench/calls takes
// its bare arithmetic from here, too.
pub const P: u32 = 2147483647;
pub const LONGEST: usize = 65536;
const TOP: u64 = 2147483648;

pub fn reduce(y: u64) -> u32 {
    ((y + (y + 1) / TOP) % TOP) as u32
}

pub fn fold(x: u64) -> u64 {
    x % TOP + x / TOP
}

pub fn mul(a: u32, b: u32) -> u32 {
    reduce(fold(a as u64 * b as u64))
}

pub fn sub(a: u32, b: u32) -> u32 {
    reduce(a as u64 + (P - b) as u64)
}

#[inline(never)]
pub fn inner(a: &[u32], b: &[u32], out: &mut u32) -> u32 {
    if a.len() != b.len() || a.len() > LONGEST {
        return 1;
    }
    let mut low = 0;
    let mut high = 0;
    for (&x, &y) in a.iter().zip(b) {
        let z = x as u64 * y as u64;
        low += z % TOP;
        high += z / TOP;
    }
    *out = reduce(fold(low + high));
    0
}

#[inline(never)]
pub fn ascending(x: u32, out: &mut [u32]) -> u32 {
    if x >= P || out.len() > P as usize {
        return 1;
    }
    let mut acc = 1;
    for (i, o) in out.iter_mut().enumerate() {
        *o = acc;
        acc = mul(acc, sub(x, i as u32));
    }
    0
}

// The powers of s, each from the one before.
fn chain(s: u32, out: &mut [u32]) {
    let mut acc = 1;
    for o in out {
        *o = acc;
        acc = mul(acc, s);
    }
}

// The same where the first k are there: each from the one k places before it.
fn stretch(s: u32, k: usize, out: &mut [u32]) {
    let by = mul(out[k - 1], s);
    for i in k..out.len() {
        out[i] = mul(out[i - k], by);
    }
}

#[inline(never)]
pub fn powers(s: u32, out: &mut [u32]) -> u32 {
    if s >= P {
        return 1;
    }
    let n = out.len();
    chain(s, &mut out[..n.min(8)]);
    if n > 8 {
        stretch(s, 8, &mut out[..n.min(32)]);
    }
    if n > 32 {
        stretch(s, 32, out);
    }
    0
}
