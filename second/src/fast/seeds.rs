//! Shares from seeds in the fast form: a few blocks of the key stream at once.

use super::making::{remainder, whole};
use crate::chacha;
use crate::field::{P, WIDTH};
use crate::seeds::{check, made_length, message, nonce, SEED_LENGTH};

/// So many blocks at once.
const LANES: usize = 4;
/// One word of each block.
type Row = [u32; LANES];

/// `a += b` and `d = (d ^ a) <<< bits`, in every block.
#[inline(always)]
fn half_step(a: &mut Row, b: Row, d: &mut Row, bits: u32) {
    for lane in 0..LANES {
        a[lane] = a[lane].wrapping_add(b[lane]);
    }
    for lane in 0..LANES {
        d[lane] = (d[lane] ^ a[lane]).rotate_left(bits);
    }
}

/// The quarter round of four words, in every block. With constant places the words stay in
/// registers.
#[inline(always)]
fn quarter<const A: usize, const B: usize, const C: usize, const D: usize>(rows: &mut [Row; 16]) {
    let [mut a, mut b, mut c, mut d] = [rows[A], rows[B], rows[C], rows[D]];
    half_step(&mut a, b, &mut d, 16);
    half_step(&mut c, d, &mut b, 12);
    half_step(&mut a, b, &mut d, 8);
    half_step(&mut c, d, &mut b, 7);
    [rows[A], rows[B], rows[C], rows[D]] = [a, b, c, d];
}

/// The words of LANES blocks from a state on, whose counter is that of the first.
fn blocks(first: &[u32; 16]) -> [Row; 16] {
    let mut before = first.map(|word| [word; LANES]);
    for (lane, counter) in (0u32..).zip(&mut before[12]) {
        *counter = counter.wrapping_add(lane);
    }
    let mut rows = before;
    for _ in 0..10 {
        quarter::<0, 4, 8, 12>(&mut rows);
        quarter::<1, 5, 9, 13>(&mut rows);
        quarter::<2, 6, 10, 14>(&mut rows);
        quarter::<3, 7, 11, 15>(&mut rows);
        quarter::<0, 5, 10, 15>(&mut rows);
        quarter::<1, 6, 11, 12>(&mut rows);
        quarter::<2, 7, 8, 13>(&mut rows);
        quarter::<3, 4, 9, 14>(&mut rows);
    }
    for (row, old) in rows.iter_mut().zip(before) {
        for (word, old) in row.iter_mut().zip(old) {
            *word = word.wrapping_add(old);
        }
    }
    rows
}

/// The bytes of the element that a word of the stream gives.
fn element(word: u32) -> [u8; WIDTH] {
    let low = word & P as u32;
    let element = if low == P as u32 { 0 } else { low };
    element.to_le_bytes()
}

/// Fills in the elements of a seed, as bytes.
pub(crate) fn fill(seed: &[u8; SEED_LENGTH], id: u32, words: &mut [[u8; WIDTH]]) {
    let nonce = nonce(id);
    for (part, counter) in words.chunks_mut(16 * LANES).zip((0..).step_by(LANES)) {
        if part.len() <= 16 {
            let block = chacha::block(seed, counter, &nonce);
            for (to, &word) in part.iter_mut().zip(block.as_chunks().0) {
                *to = element(u32::from_le_bytes(word));
            }
            continue;
        }
        let rows = blocks(&chacha::state(seed, counter, &nonce));
        for (place, to) in part.iter_mut().enumerate() {
            *to = element(rows[place % 16][place / 16]);
        }
    }
}

/// Makes a return from seeds: server 0's long message, then the seed messages in server order.
/// Order of refusals: sheet, S, 5, 6, 14.
pub fn make_seeded(
    sheet: &[u8],
    servers: u32,
    id: u32,
    values: &[u8],
    random: &[u8],
    seeds: &[u8],
    room: usize,
) -> Result<Vec<u8>, u32> {
    let (order, seeds) = check(sheet, servers, values, random, seeds, room)?;
    let whole = whole(&order, random);
    let mut taken = vec![0u64; whole.len()];
    let mut words = vec![[0; WIDTH]; whole.len()];
    for seed in seeds {
        fill(seed, id, &mut words);
        for (sum, &word) in taken.iter_mut().zip(&words) {
            *sum += u64::from(u32::from_le_bytes(word));
        }
    }
    let mut out = Vec::with_capacity(made_length(&order, servers));
    remainder(id, &whole, &taken, &mut out);
    for (server, seed) in (1u8..).zip(seeds) {
        out.extend_from_slice(&message(id, server, seed));
    }
    Ok(out)
}
