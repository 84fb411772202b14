//! "Short shares from seeds": a share told by 32 bytes, and making a return from seeds.

use crate::chacha::{self, KEY, NONCE};
use crate::circuit::Circuit;
use crate::field::{self, P, WIDTH};
use crate::making::{self, check_values, Order};
use crate::refusal;

/// The kind byte of a seed message.
pub const SEED: u8 = 38;
/// The length of a seed.
pub const SEED_LENGTH: usize = KEY;
/// "Byte 38, id, server, seed, 38 bytes in all."
pub const SEED_MESSAGE_LENGTH: usize = 6 + SEED_LENGTH;

/// "The nonce is the id followed by eight zero bytes", the id as in messages.
pub(crate) fn nonce(id: u32) -> [u8; NONCE] {
    let mut nonce = [0; NONCE];
    nonce[..4].copy_from_slice(&id.to_le_bytes());
    nonce
}

/// "Each 4 stream bytes, with the top bit cleared, are taken modulo p", lowest byte first.
fn element(bytes: [u8; WIDTH]) -> u64 {
    u64::from(u32::from_le_bytes(bytes) & 0x7FFF_FFFF) % P
}

/// So many elements from a seed: "The elements come from ChaCha20 of RFC 8439 ... keyed by the
/// seed, counter from 0."
pub fn expand(seed: &[u8; SEED_LENGTH], id: u32, count: usize) -> Vec<u64> {
    let nonce = nonce(id);
    let bytes = chacha::stream(seed, &nonce)
        .take((WIDTH * count).div_ceil(chacha::BLOCK))
        .collect::<Vec<_>>()
        .concat();
    let (words, _) = bytes.as_chunks::<WIDTH>();
    words
        .iter()
        .take(count)
        .map(|&word| element(word))
        .collect()
}

/// A seed message.
pub(crate) fn message(id: u32, server: u8, seed: &[u8; SEED_LENGTH]) -> [u8; SEED_MESSAGE_LENGTH] {
    let mut message = [0; SEED_MESSAGE_LENGTH];
    message[..6].copy_from_slice(&making::header(id, server));
    message[0] = SEED;
    message[6..].copy_from_slice(seed);
    message
}

/// The length of what making from seeds writes.
pub(crate) fn made_length(order: &Order, servers: u32) -> usize {
    order.sheet.share_length() + (servers as usize - 1) * SEED_MESSAGE_LENGTH
}

/// The refusals of making from seeds, in making's order: sheet, S, 5, 6, 14. Gives the seeds too.
pub(crate) fn check<'a>(
    sheet: &[u8],
    servers: u32,
    values: &[u8],
    random: &[u8],
    seeds: &'a [u8],
    room: usize,
) -> Result<(Order, &'a [[u8; SEED_LENGTH]]), u32> {
    let order = check_values(sheet, servers, values)?;
    // "A workshop makes such a return from u_0, v_0, a, b and S - 1 seeds." "A wrong count of
    // seeds" is refused 6; seeds are cut nowhere.
    let (each, rest) = seeds.as_chunks();
    let enough = random.len() == 4 * WIDTH && field::all_elements(random);
    if !enough || each.len() != servers as usize - 1 || !rest.is_empty() {
        return Err(refusal::RANDOM);
    }
    if room < made_length(&order, servers) {
        return Err(refusal::ROOM);
    }
    Ok((order, each))
}

/// Makes a return from seeds: "server 0's long message is written first, then the seed messages
/// in server order". Order of refusals: sheet, S, 5, 6, 14.
pub fn make_seeded(
    sheet: &[u8],
    servers: u32,
    id: u32,
    values: &[u8],
    random: &[u8],
    seeds: &[u8],
    room: usize,
) -> Result<Vec<u8>, u32> {
    let (order, seeds) = check(sheet, servers, values, random, seeds, room)?;
    let free = field::elements(random).ok_or(refusal::RANDOM)?;
    let whole = making::whole(&Circuit::of(&order.sheet), &order.entries, &free);
    // "Server 0's share is still the remainder."
    let each = seeds.iter().map(|seed| expand(seed, id, whole.len()));
    let long = making::messages(id, &whole, &each.collect::<Vec<_>>().concat());
    let mut out = long[..order.sheet.share_length()].to_vec();
    for (server, seed) in (1u8..).zip(seeds) {
        out.extend_from_slice(&message(id, server, seed));
    }
    Ok(out)
}

#[cfg(test)]
mod tests {
    use super::*;

    #[test]
    fn words_to_elements() {
        let top = 0x8000_0000u32;
        for (word, must) in [
            (0, 0),
            (1, 1),
            (0x7FFF_FFFE, P - 1),
            (0x7FFF_FFFF, 0),
            (top, 0),
            (top + 1, 1),
            (0xFFFF_FFFE, P - 1),
            (0xFFFF_FFFF, 0),
            (0x0403_0201, 0x0403_0201),
        ] {
            assert_eq!(element(word.to_le_bytes()), must, "{word:x}");
        }
    }

    #[test]
    fn the_id_in_the_nonce() {
        assert_eq!(nonce(0x0403_0201), [1, 2, 3, 4, 0, 0, 0, 0, 0, 0, 0, 0]);
    }
}
