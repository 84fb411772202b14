//! ChaCha20 of RFC 8439: its key stream.

/// The length of a key.
pub const KEY: usize = 32;
/// The length of a nonce.
pub const NONCE: usize = 12;
/// The length of a block of the stream.
pub const BLOCK: usize = 64;

/// Words 0 to 3 of the state: "expand 32-byte k", lowest byte first.
const CONSTANTS: [u32; 4] = [0x6170_7865, 0x3320_646e, 0x7962_2d32, 0x6b20_6574];

/// Section 2.3: the four column rounds and the four diagonal rounds, by the words that they mix.
const QUARTERS: [[usize; 4]; 8] = [
    [0, 4, 8, 12],
    [1, 5, 9, 13],
    [2, 6, 10, 14],
    [3, 7, 11, 15],
    [0, 5, 10, 15],
    [1, 6, 11, 12],
    [2, 7, 8, 13],
    [3, 4, 9, 14],
];

/// Section 2.1: the quarter round.
fn quarter_round([mut a, mut b, mut c, mut d]: [u32; 4]) -> [u32; 4] {
    a = a.wrapping_add(b);
    d = (d ^ a).rotate_left(16);
    c = c.wrapping_add(d);
    b = (b ^ c).rotate_left(12);
    a = a.wrapping_add(b);
    d = (d ^ a).rotate_left(8);
    c = c.wrapping_add(d);
    b = (b ^ c).rotate_left(7);
    [a, b, c, d]
}

/// Section 2.3: the state before the rounds. Constants, key, block counter, nonce.
pub(crate) fn state(key: &[u8; KEY], counter: u32, nonce: &[u8; NONCE]) -> [u32; 16] {
    let word = |bytes: &[u8], at: usize| {
        u32::from_le_bytes([bytes[at], bytes[at + 1], bytes[at + 2], bytes[at + 3]])
    };
    std::array::from_fn(|place| match place {
        0..4 => CONSTANTS[place],
        4..12 => word(key, 4 * (place - 4)),
        12 => counter,
        _ => word(nonce, 4 * (place - 13)),
    })
}

/// Section 2.3: the block function. 20 rounds, two at a time, then the state from before is added
/// and the words are written lowest byte first.
pub fn block(key: &[u8; KEY], counter: u32, nonce: &[u8; NONCE]) -> [u8; BLOCK] {
    let before = state(key, counter, nonce);
    let mut mixed = before;
    for _ in 0..10 {
        for places in QUARTERS {
            let words = quarter_round(places.map(|place| mixed[place]));
            for (place, word) in places.into_iter().zip(words) {
                mixed[place] = word;
            }
        }
    }
    let mut bytes = [0; BLOCK];
    let words = mixed.iter().zip(before);
    for (out, (&word, old)) in bytes.chunks_exact_mut(4).zip(words) {
        out.copy_from_slice(&word.wrapping_add(old).to_le_bytes());
    }
    bytes
}

/// The key stream: the blocks one after another, counted from 0.
pub fn stream<'a>(
    key: &'a [u8; KEY],
    nonce: &'a [u8; NONCE],
) -> impl Iterator<Item = [u8; BLOCK]> + 'a {
    (0..=u32::MAX).map(|counter| block(key, counter, nonce))
}

#[cfg(test)]
mod tests {
    use super::*;

    /// Section 2.1.1.
    #[test]
    fn a_quarter_round() {
        let before = [0x1111_1111, 0x0102_0304, 0x9b8d_6f43, 0x0123_4567];
        let after = [0xea2a_92f4, 0xcb1c_f8ce, 0x4581_472e, 0x5881_c4bb];
        assert_eq!(quarter_round(before), after);
    }

    /// Section 2.2.1: a quarter round of the words 2, 7, 8 and 13 of a state.
    #[test]
    fn a_quarter_round_of_a_state() {
        let mixed = quarter_round([0x516461b1, 0x2a5f714c, 0x53372767, 0x3d631689]);
        assert_eq!(mixed, [0xbdb886dc, 0xcfacafd2, 0xe46bea80, 0xccc07c79]);
        assert!(QUARTERS.contains(&[2, 7, 8, 13]));
    }

    #[test]
    fn the_constants_are_text() {
        let text: Vec<u8> = CONSTANTS.iter().flat_map(|w| w.to_le_bytes()).collect();
        assert_eq!(text, b"expand 32-byte k");
    }
}
