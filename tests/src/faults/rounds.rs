//! The faults of both rounds: alone, and among seven others that wait.

use super::tables::{fixtures, not_waiting, parts, stages, tables};
use super::{alone_and_in_pairs, fault, rooms, Fault, P};
use crate::calls::Call;
use crate::fixture::Fixture;
use crate::layout::{put_word, AWAITS_ONE, AWAITS_TWO};
use crate::orders::ordered;
use crate::reference::{ONE_BYTES, TWO_BYTES};
use crate::suite::{Suite, Verdict};

/// The orders in which the messages of three servers stand: that of the servers, and one with none in its own place.
const ORDERS: [[usize; 3]; 2] = [[0, 1, 2], [1, 2, 0]];

/// Where a byte of the message of a server stands in messages of so many bytes each, in this order.
fn place_of(length: usize, order: [usize; 3], server: usize, at: usize) -> usize {
    length * order.iter().position(|&place| place == server).unwrap_or(0) + at
}

/// Joined round messages at fault, at server 1 of 3; `kind` is the round's and `length` that of each. They stand in this
/// order. No two changes of server numbers give two others each other's: that is no fault.
fn joined(order: u32, kind: u8, length: usize, places: [usize; 3]) -> Vec<Fault> {
    let at = |server: usize, at: usize| place_of(length, places, server, at);
    let byte =
        |place: &'static str, at: usize, change: u8| fault(order, 12, place, move |call| call.message[at] ^= change);
    let mut faults = vec![
        byte("kind 0", at(0, 0), kind),
        byte("kind 1", at(1, 0), 34 ^ 35),
        byte("kind 2", at(2, 0), 34 ^ 35),
        byte("server 0", at(0, 5), 1),
        byte("server 0", at(0, 5), 2),
        byte("server 0", at(0, 5), 3),
        byte("server 1", at(1, 5), 1),
        byte("server 1", at(1, 5), 3),
        byte("server 1", at(1, 5), 2),
        byte("server 1", at(1, 5), 32),
        byte("server 2", at(2, 5), 1),
        byte("server 2", at(2, 5), 128),
    ];
    faults.extend((6..length).step_by(4).flat_map(|k| [k, k + 3]).map(|k| byte("own", at(1, k), 1)));
    faults.extend([1, 2, 3, 4].map(|k| byte("id 0", at(0, k), 1)));
    faults.extend([1, 2, 3, 4].map(|k| byte("id 2", at(2, k), 128)));
    let element =
        |at: usize, wrong: u64| fault(order, 12, "element", move |call| put_word(&mut call.message, at, wrong));
    let inside = |at: &usize| *at < length;
    faults.extend([6, 10, 14].into_iter().filter(inside).map(|k| element(at(0, k), P)));
    faults.extend([6, 10, 18].into_iter().filter(inside).map(|k| element(at(2, k), P)));
    faults.push(element(at(2, 10), (1 << 32) - 1));
    // A server twice: the first stands for the second too.
    let twice = |(from, to): (usize, usize)| {
        let (from, to) = (at(from, 0), at(to, 0));
        fault(order, 12, "twice", move |call| call.message.copy_within(from..from + length, to))
    };
    faults.extend([(0, 1), (0, 2), (1, 0), (1, 2), (2, 0), (2, 1)].map(twice));
    faults
}

/// Challenges that differ: s of server 0, or r of server 2. No other fault changes these.
fn unequal(order: u32, places: [usize; 3]) -> Vec<Fault> {
    let put = |place: &'static str, at: usize, number: u64| {
        fault(order, 16, place, move |call| put_word(&mut call.message, at, number))
    };
    let (s, r) = (place_of(ONE_BYTES, places, 0, 18), place_of(ONE_BYTES, places, 2, 14));
    [0, 1, P - 1].into_iter().flat_map(|number| [put("other s", s, number), put("other r", r, number)]).collect()
}

/// Wrong lengths of joined round messages of three servers, of so many bytes each.
fn lengths(order: u32, length: usize) -> Vec<Fault> {
    let resized = |length: usize| fault(order, 12, "length", move |call| call.message.resize(length, 0));
    let other = 3 * (ONE_BYTES + TWO_BYTES - length);
    [0, length, 2 * length, 3 * length - 1, 3 * length + 1, 4 * length, other].map(resized).into()
}

/// Another id is named: none that waits, one in another stage (11), or one that awaits this round too (12).
fn named(fixture: &Fixture, stage: u32) -> Vec<Fault> {
    let mut faults = not_waiting();
    for slot in fixture.idle.slots.iter().filter(|slot| slot.stage != 0) {
        let (id, (order, number)) = (slot.id, if slot.stage == stage { (1, 12) } else { (0, 11) });
        faults.push(fault(order, number, "named", move |call| call.id = id));
    }
    faults
}

/// Round one: 11, 12, 16, 14.
pub fn round_one(suite: &mut Suite) -> Verdict {
    for (fixture, order) in fixtures(suite)?.iter().flat_map(|fixture| ORDERS.map(|order| (fixture, order))) {
        let mut faults = named(fixture, AWAITS_ONE);
        faults.extend(stages(&[&fixture.idle, &fixture.second, &fixture.third, &fixture.full]));
        faults.extend(tables(fixture));
        faults.extend(joined(1, 34, ONE_BYTES, order));
        faults.extend(unequal(2, order));
        faults.extend(rooms(3, TWO_BYTES));
        faults.extend(lengths(1, ONE_BYTES));
        faults.extend(parts(0, 11, fixture.idle.elements.len()));
        let message = ordered(&fixture.joined_one, &order);
        alone_and_in_pairs(suite, &Call { message, ..fixture.round_one() }, &faults)?;
    }
    Ok(())
}

/// Round two: 11, 12.
pub fn round_two(suite: &mut Suite) -> Verdict {
    for (fixture, order) in fixtures(suite)?.iter().flat_map(|fixture| ORDERS.map(|order| (fixture, order))) {
        let mut faults = named(fixture, AWAITS_TWO);
        faults.extend(stages(&[&fixture.idle, &fixture.first, &fixture.third, &fixture.full]));
        faults.extend(tables(fixture));
        faults.extend(joined(1, 35, TWO_BYTES, order));
        faults.extend(lengths(1, TWO_BYTES));
        faults.extend(parts(0, 11, fixture.idle.elements.len()));
        let message = ordered(&fixture.joined_two, &order);
        alone_and_in_pairs(suite, &Call { message, ..fixture.round_two() }, &faults)?;
        // Round one's messages do not do for round two.
        let message = ordered(&fixture.joined_one, &order);
        suite.number(&Call { message, ..fixture.round_two() }, 12)?;
    }
    Ok(())
}
