//! Random damage to the three parts of a table, and to joined round messages.

use second::field::P;
use second::gen::Rng;

use crate::layout::{Parts, Slot};

/// A table with a few changes in any of its parts. Some leave it sound.
pub fn damaged(rng: &mut Rng, table: &Parts) -> Parts {
    let mut damaged = table.clone();
    for _ in 0..rng.pick([1, 1, 1, 2, 4]) {
        match rng.below(4) {
            0 => bytes(rng, &mut damaged.bytes),
            1 => records(rng, &mut damaged),
            2 => fields(rng, &mut damaged.slots),
            _ => elements(rng, &mut damaged.elements),
        }
    }
    damaged
}

/// A few bytes changed, mostly in the header; or cut, or longer.
fn bytes(rng: &mut Rng, bytes: &mut Vec<u8>) {
    let length = bytes.len();
    match rng.below(8) {
        0 => bytes.truncate(rng.index(length)),
        1 => bytes.truncate(length.saturating_sub(1 + rng.index(4))),
        2 => bytes.extend(rng.bytes(9)),
        _ => {
            for _ in 0..rng.between(1, 3).min(length as u64) {
                let (head, any, byte) = (rng.index(length.min(14)), rng.index(length), rng.next_u64() as u8);
                let at = rng.pick([head, any]);
                bytes[at] = rng.pick([bytes[at] ^ 1, bytes[at] ^ 128, byte]);
            }
        }
    }
}

/// Two records with or without their places changed for one another, one told twice, one freed or brought back, all in
/// another order, one more or fewer.
fn records(rng: &mut Rng, table: &mut Parts) {
    let count = table.slots.len();
    if count == 0 {
        return;
    }
    let (one, two) = (rng.index(count), rng.index(count));
    match rng.below(8) {
        0 | 1 => table.slots.swap(one, two),
        2 => {
            table.slots.swap(one, two);
            let place = table.elements.len() / count;
            (0..place).for_each(|k| table.elements.swap(one * place + k, two * place + k));
        }
        3 => table.slots[one] = table.slots[two],
        4 => table.slots[one] = Slot::default(),
        5 => table.slots[one].stage = rng.pick([0, 1, 2, 3, 3, 4, 255, 256, 259, u32::MAX]),
        6 => table.slots.truncate(rng.pick([0, 1, count - 1])),
        _ => table.slots.push(table.slots[one]),
    }
}

/// Fields of records at their limits and past them.
fn fields(rng: &mut Rng, slots: &mut [Slot]) {
    if slots.is_empty() {
        return;
    }
    for _ in 0..rng.between(1, 3) {
        let (at, from) = (rng.index(slots.len()), rng.index(slots.len()));
        let (any, below) = (rng.next_u64(), rng.below(P));
        let number = rng.pick([0, 1, 2, below, P - 1, P, P + 1, 1 << 32, (1 << 32) + below, any]);
        match rng.below(6) {
            0 => slots[at].id = rng.pick([slots[from].id, any as u32]),
            1 => slots[at].stage = rng.pick([0, 1, 2, 3, number as u32]),
            2 => slots[at].r = number,
            3 => slots[at].s = number,
            4 => slots[at].d = number,
            _ => slots[at].e = number,
        }
    }
}

/// A few numbers changed; or cut, or longer.
fn elements(rng: &mut Rng, elements: &mut Vec<u32>) {
    let length = elements.len();
    match rng.below(8) {
        0 => elements.truncate(rng.index(length)),
        1 => elements.truncate(length.saturating_sub(1 + rng.index(3))),
        2 => elements.extend([rng.no_element(), 5]),
        _ => {
            for _ in 0..rng.between(1, 3).min(length as u64) {
                let at = rng.index(length);
                let (wrong, other) = (rng.no_element(), rng.below(P) as u32);
                elements[at] = rng.pick([wrong, elements[at] ^ 1, other]);
            }
        }
    }
}

/// A few changes of the joined messages of so many bytes that server `own` is handed. Some leave them sound.
pub fn damaged_joined(rng: &mut Rng, own: usize, length: usize, joined: &mut Vec<u8>) {
    for _ in 0..rng.pick([1, 1, 1, 2, 3]) {
        let places = joined.len() / length;
        if places == 0 {
            return;
        }
        let [one, two] = [(); 2].map(|()| length * rng.index(places));
        let mut messages = joined.chunks_exact(length);
        let mine = messages.position(|message| usize::from(message[5]) == own).map_or(one, |place| length * place);
        let from = rng.pick([one, mine]);
        let number = rng.index(places + 1) as u8;
        let element = from + 6 + 4 * rng.index((length - 6) / 4);
        match rng.below(9) {
            0 => joined.copy_within(from..from + length, two),
            1 => joined.swap(from + 5, two + 5),
            2 => joined[from + 5] = rng.pick([number, number, 8, 16 + number, 64 + number, 255]),
            3 => joined[from + rng.index(5)] ^= rng.pick([1, 2, 128]),
            4 | 5 => joined[element + rng.pick([0, 3])] ^= rng.pick([1, 2, 128]),
            6 => joined[from + 6..from + length].fill(rng.pick([0, 127, 255])),
            7 => {
                let message = joined[one..one + length].to_vec();
                joined.splice(two..two, message);
            }
            _ => {
                joined.drain(from..from + rng.pick([1, length, length]));
            }
        }
    }
}
