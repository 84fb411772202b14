//! "Field and bytes": whole numbers modulo p and how they travel.
//!
//! The arithmetic takes elements (numbers below p) and gives elements.

/// p = 2147483647.
pub const P: u64 = 2_147_483_647;

/// The number of bytes of an element on its way.
pub const WIDTH: usize = 4;

/// a + b modulo p.
pub fn add(a: u64, b: u64) -> u64 {
    (a + b) % P
}

/// a - b modulo p.
pub fn sub(a: u64, b: u64) -> u64 {
    (a + P - b) % P
}

/// a × b modulo p.
pub fn mul(a: u64, b: u64) -> u64 {
    (a * b) % P
}

/// base to the exponent modulo p; the power 0 is 1 for every base, 0 included.
pub fn pow(base: u64, exponent: u64) -> u64 {
    let mut result = 1;
    let mut square = base;
    let mut left = exponent;
    while left > 0 {
        if left % 2 == 1 {
            result = mul(result, square);
        }
        square = mul(square, square);
        left /= 2;
    }
    result
}

/// The inverse of a modulo p, for a other than 0 (by Fermat's theorem).
pub fn inverse(a: u64) -> u64 {
    pow(a, P - 2)
}

/// The sum of a run of elements modulo p.
pub fn sum<I: IntoIterator<Item = u64>>(run: I) -> u64 {
    run.into_iter().fold(0, add)
}

/// Writes an element as 4 bytes, lowest byte first.
pub fn put(out: &mut Vec<u8>, element: u64) {
    out.extend_from_slice(&bytes(element));
}

/// The 4 bytes of an element, lowest byte first.
pub(crate) fn bytes(element: u64) -> [u8; WIDTH] {
    ((element % P) as u32).to_le_bytes()
}

/// The 4-byte numbers of a run, lowest byte first; left-over bytes are not shown.
pub(crate) fn words(bytes: &[u8]) -> impl ExactSizeIterator<Item = u32> + '_ {
    let (chunks, _) = bytes.as_chunks::<WIDTH>();
    chunks.iter().map(|chunk| u32::from_le_bytes(*chunk))
}

/// Whether every 4-byte number of a run is below p.
pub(crate) fn all_elements(bytes: &[u8]) -> bool {
    all_below(words(bytes))
}

/// Whether every number of a run is below p.
pub(crate) fn all_below(run: impl Iterator<Item = u32>) -> bool {
    // No early exit: the pass is the same for every run. A number is p = 2^31 - 1 or more
    // when it or the next one has the top bit.
    let tops = |tops, number: u32| tops | number | number.wrapping_add(1);
    run.fold(0, tops) >> 31 == 0
}

/// Reads a run of elements. `None` when one is not below p or bytes are left over.
pub fn elements(bytes: &[u8]) -> Option<Vec<u64>> {
    if !bytes.len().is_multiple_of(WIDTH) || !all_elements(bytes) {
        return None;
    }
    Some(words(bytes).map(u64::from).collect())
}

#[cfg(test)]
mod tests {
    use super::*;

    #[test]
    fn laws_on_samples() {
        let samples = [0, 1, 2, 3, 1 << 16, P / 2, P - 2, P - 1];
        for &a in &samples {
            for &b in &samples {
                assert_eq!(add(sub(a, b), b), a);
                assert_eq!(mul(a, b), (a as u128 * b as u128 % P as u128) as u64);
                if b != 0 {
                    assert_eq!(mul(mul(a, b), inverse(b)), a);
                }
            }
        }
        assert_eq!(pow(0, 0), 1);
        assert_eq!(pow(0, 5), 0);
        assert_eq!(pow(3, P - 1), 1);
    }

    #[test]
    fn bytes_lowest_first() {
        let mut out = Vec::new();
        put(&mut out, P - 1);
        assert_eq!(out, [0xFE, 0xFF, 0xFF, 0x7F]);
        assert_eq!(elements(&out), Some(vec![P - 1]));
        assert_eq!(elements(&[0xFF, 0xFF, 0xFF, 0x7F]), None);
        assert_eq!(elements(&[0, 0, 0, 0x80]), None);
        assert_eq!(elements(&[0, 0, 0]), None);
        assert_eq!(elements(&[]), Some(vec![]));
    }
}
