//! One r and one s at every server: round one with others is refused 16, in every form.

mod common;

use common::rounds::*;
use common::*;
use second::gen::{Answer, Call, Server};

/// Where r and s stand in a round one message.
const R: usize = 14;
const S: usize = 18;

/// Round one's messages with another number in a server's.
fn put(joined: &[u8], server: usize, at: usize, number: u32) -> Vec<u8> {
    with(joined, start(joined, server) + at, &number.to_le_bytes())
}

/// Round one's messages with other challenges in a server's.
fn paired(joined: &[u8], server: usize, (r, s): (u64, u64)) -> Vec<u8> {
    put(&put(joined, server, R, r as u32), server, S, s as u32)
}

/// Elements up to p - 1, 0 too, are 16 where they differ; p and more is 12.
#[test]
fn another_number() {
    for servers in 2..=8 {
        let [round, _] = rounds(servers);
        let servers = servers as usize;
        for (own, other) in (0..servers).flat_map(|own| (0..servers).map(move |k| (own, k))) {
            if own == other {
                continue;
            }
            for at in [R, S] {
                for number in [0, 1, 2, 99, 101, P32 - 1] {
                    round.refuses(own, 16, &put(&round.joined, other, at, number));
                }
                for number in [P32, P32 + 1, P32 + 3, P32 + 100, u32::MAX] {
                    round.refuses(own, 12, &put(&round.joined, other, at, number));
                }
            }
            round.refuses(own, 16, &paired(&round.joined, other, (0, 0)));
            round.refuses(own, 16, &paired(&round.joined, other, (3, 100)));
        }
    }
}

/// Every bit counts.
#[test]
fn every_bit() {
    let [round, _] = rounds(3);
    for (at, old) in [(R, 100), (S, 3)] {
        for bit in 0..31 {
            round.refuses(1, 16, &put(&round.joined, 2, at, old ^ 1 << bit));
        }
        round.refuses(1, 12, &put(&round.joined, 2, at, old ^ 1 << 31));
    }
}

/// Only r or only s differs at one place, whichever it is: 16, but 12 at the server whose own
/// message was altered.
#[test]
fn every_place() {
    for servers in 2..=8 {
        let [round, _] = rounds(servers);
        for joined in [round.joined.clone(), reversed(&round.joined)] {
            for (own, server) in
                (0..servers).flat_map(|own| (0..servers).map(move |server| (own, server)))
            {
                let number = if own == server { 12 } else { 16 };
                for wrong in altered_challenges(&joined, server as usize) {
                    round.refuses(own as usize, number, &wrong);
                }
            }
        }
    }
}

/// Every server but the own one has the same pair.
#[test]
fn only_the_own_one_differs() {
    for servers in 2..=8 {
        for own in 0..servers {
            let [round, _] = rounds(servers as u32);
            for pair in [(101, 3), (100, 4), (100, 0), (0, 3)] {
                let others = (0..servers).filter(|&server| server != own);
                let joined = others.fold(round.joined.clone(), |joined, server| {
                    paired(&joined, server, pair)
                });
                round.refuses(own, 16, &joined);
                round.refuses(own, 16, &reversed(&joined));
            }
        }
    }
}

/// A fault of 12 comes before 16, wherever both stand.
#[test]
fn any_fault_of_12_before_16() {
    let [round, _] = rounds(4);
    for (own, slip, broken) in [(0, 1, 2), (0, 3, 1), (2, 0, 1), (2, 1, 3), (3, 0, 0)] {
        let unequal = put(&round.joined, slip, S, 4);
        for unequal in [reversed(&unequal), unequal] {
            let at = start(&unequal, broken);
            let element = |at: usize| put(&unequal, broken, at, P32);
            for wrong in [
                with(&unequal, at, &[35]),
                with(&unequal, at + 1, &[99]),
                with(&unequal, at + 5, &[4]),
                with(&unequal, at + 5, &[own as u8]),
                resized(&unequal, 4 * ONE_BYTES - 1),
                element(6),
                element(10),
                element(R),
                element(S),
                put(&unequal, own, 6, 0),
                put(&unequal, own, R, 101),
                put(&unequal, own, S, 4),
            ] {
                round.refuses(own, 12, &wrong);
            }
        }
    }
}

/// 11, 12, 16, 14: one fault after the other goes away.
#[test]
fn order_of_refusals() {
    let [round, _] = rounds(3);
    let good = &round.joined;
    let unequal = put(good, 2, R, 0);
    let broken = put(&unequal, 1, S, P32);
    let (short, enough) = (TWO_BYTES - 1, TWO_BYTES);
    for (number, id, joined, room) in [
        (11, ID + 1, &broken, short),
        (11, ID + 1, &unequal, enough),
        (12, ID, &broken, short),
        (12, ID, &broken, enough),
        (16, ID, &unequal, 0),
        (16, ID, &unequal, short),
        (16, ID, &unequal, enough),
        (14, ID, good, 0),
        (14, ID, good, short),
    ] {
        let joined = joined.clone();
        let call = Call::RoundOne { id, joined, room };
        assert_eq!(round.tables[0].clone().call(&call), Answer::Refused(number));
    }
}
