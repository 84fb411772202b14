//! Joined messages in other orders, and altered.

use second::gen::Rng;

use crate::layout::{put_word, word};
use crate::reference::message_length;

const P: u64 = 2_147_483_647;

/// Joined messages of so many bytes each, in an order of those places.
pub fn picked(joined: &[u8], length: usize, order: &[usize]) -> Vec<u8> {
    order.iter().flat_map(|&place| &joined[length * place..][..length]).copied().collect()
}

/// Round messages in an order of their places.
pub fn ordered(joined: &[u8], order: &[usize]) -> Vec<u8> {
    picked(joined, message_length(joined), order)
}

/// Round messages in a random order.
pub fn shuffled(rng: &mut Rng, joined: &[u8]) -> Vec<u8> {
    let mut order: Vec<usize> = (0..joined.len() / message_length(joined)).collect();
    rng.shuffle(&mut order);
    ordered(joined, &order)
}

pub fn reversed(joined: &[u8]) -> Vec<u8> {
    let order: Vec<usize> = (0..joined.len() / message_length(joined)).rev().collect();
    ordered(joined, &order)
}

/// Every order of so many messages.
pub fn every_order(count: usize) -> Vec<Vec<usize>> {
    let mut all = vec![Vec::new()];
    for next in 0..count {
        let with = |order: &Vec<usize>, at| [&order[..at], &[next], &order[at..]].concat();
        all = all.iter().flat_map(|order| (0..=next).map(|at| with(order, at)).collect::<Vec<_>>()).collect();
    }
    all
}

/// Where the message of a server starts.
pub fn start(joined: &[u8], server: usize) -> usize {
    let length = message_length(joined);
    let place = joined.chunks(length).position(|message| usize::from(message[5]) == server);
    length * place.unwrap_or(0)
}

/// Messages with one of the first two elements of a server's changed.
pub fn altered(joined: &[u8], server: usize) -> [Vec<u8>; 2] {
    [6, 10].map(|at| one_more(joined, server, at))
}

/// Round one's messages with r or s of a server's changed.
pub fn altered_challenges(joined: &[u8], server: usize) -> [Vec<u8>; 2] {
    [14, 18].map(|at| one_more(joined, server, at))
}

/// Messages with 1 added to the element that stands there in a server's.
fn one_more(joined: &[u8], server: usize, at: usize) -> Vec<u8> {
    let at = start(joined, server) + at;
    put(joined, at, (word(joined, at) + 1) % P)
}

/// Messages with another element at a place.
pub fn put(joined: &[u8], at: usize, element: u64) -> Vec<u8> {
    let mut message = joined.to_vec();
    put_word(&mut message, at, element);
    message
}

/// Messages of which two have each other's server number.
pub fn exchanged(joined: &[u8], one: usize, two: usize) -> Vec<u8> {
    let mut message = joined.to_vec();
    message.swap(start(joined, one) + 5, start(joined, two) + 5);
    message
}
