//! Joined round messages: in any order, and with faults.

use super::builder::Builder;
use crate::field::{self, WIDTH};
use crate::gen::{pair, Rng};
use crate::judging::{
    round_one_message, round_two_message, CHALLENGES, ELEMENTS, ROUND_ONE, ROUND_ONE_LENGTH,
    ROUND_TWO, ROUND_TWO_LENGTH, SERVER,
};

/// The length of a round's messages, by their kind byte.
pub(super) fn length_of(kind: u8) -> usize {
    if kind == ROUND_ONE {
        ROUND_ONE_LENGTH
    } else {
        ROUND_TWO_LENGTH
    }
}

/// Where the message of a server starts, if there is one; each has so many bytes.
pub(super) fn start_of(joined: &[u8], length: usize, server: u32) -> Option<usize> {
    let mut messages = joined.chunks_exact(length);
    let place = messages.position(|message| u32::from(message[SERVER]) == server)?;
    Some(length * place)
}

impl Builder {
    /// The messages written for an id and a round; where none was written, a made-up one. Now
    /// and then they stand in server order, else in any.
    pub fn joined(&mut self, id: u32, kind: u8) -> Vec<u8> {
        let mut order = self.order();
        if self.rng.chance(15) {
            order.sort_unstable();
        }
        let pair = self.pair_of(id);
        let mut joined = Vec::new();
        for server in order {
            match self.written.get(&(id, kind, server)) {
                Some(message) => joined.extend_from_slice(message),
                None => {
                    let [x, y] = [(); 2].map(|()| self.rng.element());
                    if kind == ROUND_ONE {
                        joined.extend(round_one_message(id, server, [x, y], pair));
                    } else {
                        joined.extend(round_two_message(id, server, x, y));
                    }
                }
            }
        }
        joined
    }

    /// The challenges of a round one message that was written for an id, or any.
    fn pair_of(&mut self, id: u32) -> [u64; 2] {
        let mut servers = 0..self.servers;
        let written = servers.find_map(|server| self.written.get(&(id, ROUND_ONE, server)));
        if let Some(message) = written {
            let mut words = field::words(&message[CHALLENGES..]).map(u64::from);
            return [(); 2].map(|()| words.next().unwrap_or_default());
        }
        pair(&mut self.rng, self.sheet.multiplications()).into()
    }

    /// Puts a fault into joined messages of a server's round, one message or more.
    pub fn damage_joined(&mut self, server: u32, kind: u8, joined: &mut Vec<u8>) {
        let length = length_of(kind);
        let own = start_of(joined, length, server);
        let (rng, servers) = (&mut self.rng, self.servers as u8);
        let places = joined.len() / length;
        let start = length * rng.index(places);
        let element = ELEMENTS + WIDTH * rng.index((length - ELEMENTS) / WIDTH);
        match rng.below(12) {
            0 => joined[start] = rng.pick([0, 33, ROUND_ONE, ROUND_TWO, 36]),
            1 => joined[start + 1 + rng.index(4)] ^= rng.pick([1, 16, 128]),
            // A server missing, and in its place another one's number or one past the last.
            2 => {
                let other = rng.below(servers.into()) as u8;
                let number = &mut joined[start + SERVER];
                *number = rng.pick([other, other, servers, 8, *number | 8, *number | 64, 255]);
            }
            3 => put(joined, start + element, rng.no_element()),
            4 => repeat(rng, own, length, joined),
            5 => exchange(rng, own, length, joined),
            6 => damage_length(rng, servers, length, joined),
            // The other round's messages.
            7 => {
                for message in joined.chunks_exact_mut(length) {
                    message[0] = ROUND_ONE + ROUND_TWO - kind;
                }
            }
            // All messages without their last two elements: round one's without r and s.
            8 => *joined = shortened(joined, length),
            9 | 10 if kind == ROUND_ONE => damage_pair(rng, joined, start),
            // The own message altered, still with sound elements, wherever it stands.
            _ => put(joined, own.unwrap_or(start) + element, rng.element() as u32),
        }
    }
}

/// Writes a 4-byte number at a place.
fn put(joined: &mut [u8], at: usize, number: u32) {
    joined[at..at + WIDTH].copy_from_slice(&number.to_le_bytes());
}

/// Another r or s, or both, in the round one message that starts at a place; still elements.
fn damage_pair(rng: &mut Rng, joined: &mut [u8], start: usize) {
    let (r, s) = (start + CHALLENGES, start + CHALLENGES + WIDTH);
    let (one, two) = rng.pick([(r, r), (s, s), (r, s)]);
    for at in [one, two] {
        let any = rng.element() as u32;
        let number = rng.pick([0, 0, 0, 1, any]);
        put(joined, at, number);
    }
}

/// Every message of so many bytes without its last two elements.
fn shortened(joined: &[u8], length: usize) -> Vec<u8> {
    let messages = joined.chunks_exact(length);
    let short = messages.flat_map(|message| &message[..length - 2 * WIDTH]);
    short.copied().collect()
}

/// Where two messages of so many bytes start, the own one often among them.
fn two_starts(rng: &mut Rng, own: Option<usize>, length: usize, joined: &[u8]) -> (usize, usize) {
    let places = joined.len() / length;
    let [one, two] = [(); 2].map(|()| length * rng.index(places));
    let own = own.unwrap_or(one);
    rng.pick([(one, two), (one, two), (own, two), (one, own)])
}

/// A server twice: a copy of one message stands in the place of another.
fn repeat(rng: &mut Rng, own: Option<usize>, length: usize, joined: &mut [u8]) {
    let (from, to) = two_starts(rng, own, length, joined);
    joined.copy_within(from..from + length, to);
}

/// Two messages with each other's server number: each server once, but both altered.
fn exchange(rng: &mut Rng, own: Option<usize>, length: usize, joined: &mut [u8]) {
    let (one, two) = two_starts(rng, own, length, joined);
    joined.swap(one + SERVER, two + SERVER);
}

/// One message too few or too many, or any other length.
fn damage_length(rng: &mut Rng, servers: u8, length: usize, joined: &mut Vec<u8>) {
    let (one, two) = two_starts(rng, None, length, joined);
    match rng.below(3) {
        0 => {
            joined.drain(one..one + length);
        }
        // One comes again, with its own number or past the last server's.
        1 => {
            let mut more = joined[one..one + length].to_vec();
            more[SERVER] = rng.pick([more[SERVER], servers]);
            joined.splice(two..two, more);
        }
        _ => {
            let any = rng.index(joined.len());
            let n = joined.len();
            let length = rng.pick([0, length - 1, length, any, n - 1, n + 1, n + length]);
            joined.resize(length, 0);
        }
    }
}
