//! The round messages: what they hold, and which joined ones are refused.

use crate::field::{self, P, WIDTH};
use crate::refusal;

/// The kind byte of a round one message.
pub const ROUND_ONE: u8 = 34;
/// The kind byte of a round two message.
pub const ROUND_TWO: u8 = 35;

/// Where the server number stands in a round message: after kind byte and id.
pub(crate) const SERVER: usize = 5;
/// Where its elements start.
pub(crate) const ELEMENTS: usize = SERVER + 1;
/// Where r and s start in a round one message: "after e_i".
pub(crate) const CHALLENGES: usize = ELEMENTS + 2 * WIDTH;

/// The length of a round one message, with d_i, e_i, r and s: 22.
pub const ROUND_ONE_LENGTH: usize = CHALLENGES + 2 * WIDTH;
/// The length of a round two message, with sigma_i and tau_i: 14.
pub const ROUND_TWO_LENGTH: usize = ELEMENTS + 2 * WIDTH;

/// "Round-one messages now carry r and s after e_i": byte 34, id, server, d_i, e_i, r, s.
pub(crate) fn round_one_message(
    id: u32,
    server: u32,
    [d, e]: [u64; 2],
    [r, s]: [u64; 2],
) -> [u8; ROUND_ONE_LENGTH] {
    message(ROUND_ONE, id, server, &[d, e, r, s])
}

/// "Byte 35, id, server, sigma_i, tau_i."
pub(crate) fn round_two_message(
    id: u32,
    server: u32,
    sigma: u64,
    tau: u64,
) -> [u8; ROUND_TWO_LENGTH] {
    message(ROUND_TWO, id, server, &[sigma, tau])
}

/// A round message: kind byte, id, server, as many elements as fill it.
fn message<const N: usize>(kind: u8, id: u32, server: u32, elements: &[u64]) -> [u8; N] {
    let mut message = [0; N];
    message[0] = kind;
    message[1..SERVER].copy_from_slice(&id.to_le_bytes());
    message[SERVER] = server as u8;
    let (words, _) = message[ELEMENTS..].as_chunks_mut();
    for (word, &element) in words.iter_mut().zip(elements) {
        *word = field::bytes(element);
    }
    message
}

/// Judges round one's joined messages; `written` is the own one. Refusals: 12, 16. Gives d and
/// e.
pub(crate) fn round_one_sums(
    servers: u32,
    written: &[u8; ROUND_ONE_LENGTH],
    joined: &[u8],
) -> Result<(u64, u64), u32> {
    let sums = sums(servers, written, joined)?;
    // "Challenges that differ among round-one messages without a fault of 12 are refused 16,
    // right after it." The own message is one of them.
    let (messages, _) = joined.as_chunks::<ROUND_ONE_LENGTH>();
    let own = &written[CHALLENGES..];
    if messages.iter().any(|other| other[CHALLENGES..] != *own) {
        return Err(refusal::UNEQUAL);
    }
    Ok(sums)
}

/// Judges round two's joined messages; `written` is the own one. Refusal: 12. Gives the sums of
/// sigma and tau.
pub(crate) fn round_two_sums(
    servers: u32,
    written: &[u8; ROUND_TWO_LENGTH],
    joined: &[u8],
) -> Result<(u64, u64), u32> {
    sums(servers, written, joined)
}

/// Refusal 12 of joined messages; gives the sums of their first and second elements.
fn sums<const N: usize>(servers: u32, written: &[u8; N], joined: &[u8]) -> Result<(u64, u64), u32> {
    // Wrong length.
    if joined.len() != N * servers as usize {
        return Err(refusal::JOINED);
    }
    let mut sums = (0, 0);
    // The servers of the places before, a bit for each.
    let mut seen = 0u32;
    for place in 0..servers as usize {
        // "Each server's message ... is judged from its own place in them."
        let message = &joined[N * place..][..N];
        // "The joined messages of a round may stand in any order, each server exactly once."
        // There are S: when all numbers are below S and none comes twice, none is missing.
        let server = u32::from(message[SERVER]);
        if server >= servers || seen >> server & 1 == 1 {
            return Err(refusal::JOINED);
        }
        seen |= 1 << server;
        let (x, y) = first_elements(written, message).ok_or(refusal::JOINED)?;
        sums = (sums.0 + x, sums.1 + y);
    }
    Ok((sums.0 % P, sums.1 % P))
}

/// The first two elements of a message; `None` for a kind or an id other than the own message's,
/// for an element not below p, or when it is the own one, told by its server byte, and altered.
fn first_elements(written: &[u8], message: &[u8]) -> Option<(u64, u64)> {
    if message[..SERVER] != written[..SERVER] {
        return None;
    }
    if message[SERVER] == written[SERVER] && message != written {
        return None;
    }
    // "In refusal 12, r and s there are elements too."
    let elements = &message[ELEMENTS..];
    if !field::all_elements(elements) {
        return None;
    }
    let mut words = field::words(elements).map(u64::from);
    Some((words.next()?, words.next()?))
}

#[cfg(test)]
mod tests {
    use super::*;

    #[test]
    fn messages_byte_for_byte() {
        let one = round_one_message(0x0403_0201, 5, [6, P - 1], [0x0A0B_0C0D, 7]);
        let head = [34, 1, 2, 3, 4, 5];
        let elements = [6, 0, 0, 0, 0xFE, 0xFF, 0xFF, 0x7F];
        let pair = [0x0D, 0x0C, 0x0B, 0x0A, 7, 0, 0, 0];
        assert_eq!(one[..], [&head[..], &elements, &pair].concat());
        let two = round_two_message(0x0403_0201, 5, 6, P - 1);
        let head = [35, 1, 2, 3, 4, 5];
        assert_eq!(two[..], [&head[..], &elements].concat());
    }
}
