//! The refusals of the calls on a table, and their order.

mod common;

use common::*;
use second::field::P;
use second::{close, drop, enter, open, round_one, round_two, share};
use second::{Sheet, Stage, Table, Verdict};

/// Two tables that await round one, with the joined messages of round one.
fn waiting(sheet: &[u8], limit: u32) -> (Vec<Table>, Vec<u8>) {
    let mut tables = open_all(2, sheet, limit);
    let shares = honest(sheet, 2, 7);
    let mut joined = Vec::new();
    for (table, message) in tables.iter_mut().zip(&shares) {
        joined.extend(share(table, message, 100, 3, ONE_BYTES).unwrap());
    }
    (tables, joined)
}

/// Takes round one at every table; gives the joined messages of round two.
fn second_round(tables: &mut [Table], first: &[u8]) -> Vec<u8> {
    let id = id_of(first);
    let messages = tables
        .iter_mut()
        .map(|table| round_one(table, id, first, TWO_BYTES));
    messages.flat_map(Result::unwrap).collect()
}

#[test]
fn share_order() {
    let sheet = [17, 18, 2];
    let shape = Sheet::read(&sheet).unwrap();
    let (mut tables, first) = waiting(&sheet, 1);

    // 13 when N wait or are decided, however broken the share; 11 in a closed table.
    refused(&mut tables[0], 13, |t| share(t, &[], 0, P, 0));
    let second = second_round(&mut tables, &first);
    let table = &mut tables[0];
    round_two(table, 7, &second).unwrap();
    refused(table, 13, |t| share(t, &[], 0, P, 0));
    enter(table, 7).unwrap();
    refused(table, 13, |t| share(t, &[], 0, P, 0));
    close(table, ROOM).unwrap();
    refused(table, 11, |t| share(t, &[], 0, P, 0));

    // The rest with room for another return. One fault after the other goes away.
    let (mut tables, _) = waiting(&sheet, 2);
    let table = &mut tables[0];
    drop(table, 7).unwrap();
    let used = &honest(&sheet, 2, 7)[0];
    let fresh = &honest(&sheet, 2, 8)[0];
    assert_eq!(used.len(), shape.share_length());
    let large = with(used, 10, &P32.to_le_bytes());
    let wrong = with(&large, 0, &[34]);
    refused(table, 7, |t| share(t, &wrong, 0, P, 0));
    refused(table, 8, |t| share(t, &large, 0, P, 0));
    refused(table, 10, |t| share(t, used, 0, P, 0));
    refused(table, 9, |t| share(t, fresh, 0, P, 0));
    refused(table, 9, |t| share(t, fresh, 0, 0, 0));
    refused(table, 9, |t| share(t, fresh, 100, P, 0));
    refused(table, 14, |t| share(t, fresh, 100, 0, 0));
    refused(table, 14, |t| share(t, fresh, 100, 0, ONE_BYTES - 1));
    // Refused 9 and 14 leave the id unused.
    assert!(share(table, fresh, 100, 0, ONE_BYTES).is_ok());
}

#[test]
fn stages() {
    let sheet = [17];
    let (mut tables, first) = waiting(&sheet, 3);
    let mut idle = open(2, 0, &sheet, 3, 1).unwrap();
    assert_eq!(idle.waiting(), []);
    // A table at which nothing waits takes a share or a close.
    refused(&mut idle, 11, |t| round_one(t, 7, &first, TWO_BYTES));
    refused(&mut idle, 11, |t| round_two(t, 7, &first));
    refused(&mut idle, 11, |t| enter(t, 7));
    refused(&mut idle, 11, |t| drop(t, 7));
    // A return that awaits round one takes that round or a drop.
    let table = &mut tables[0];
    assert_eq!(table.waiting(), [(7, Stage::AwaitsRoundOne)]);
    refused(table, 11, |t| round_two(t, 7, &first));
    refused(table, 11, |t| enter(t, 7));
    refused(table, 11, |t| close(t, ROOM));
    assert_eq!(table.waiting_message(7).unwrap(), &first[..ONE_BYTES]);
    assert_eq!(drop(&mut table.clone(), 7), Ok(()));
    // Awaiting round two likewise.
    let second = second_round(&mut tables, &first);
    let table = &mut tables[0];
    assert_eq!(table.waiting(), [(7, Stage::AwaitsRoundTwo)]);
    refused(table, 11, |t| round_one(t, 7, &first, TWO_BYTES));
    refused(table, 11, |t| enter(t, 7));
    refused(table, 11, |t| close(t, ROOM));
    assert_eq!(table.waiting_message(7).unwrap(), &second[..TWO_BYTES]);
    assert_eq!(drop(&mut table.clone(), 7), Ok(()));
    assert_eq!(round_two(table, 7, &second), Ok(Verdict::Accepted));
    // An accepted return takes an entry or a drop.
    assert_eq!(table.waiting(), [(7, Stage::AwaitsEntry)]);
    assert_eq!(table.waiting_message(7), None);
    refused(table, 11, |t| round_one(t, 7, &first, TWO_BYTES));
    refused(table, 11, |t| round_two(t, 7, &second));
    refused(table, 11, |t| close(t, ROOM));
    assert_eq!(drop(&mut table.clone(), 7), Ok(()));
    assert_eq!(enter(table, 7), Ok(()));
    assert_eq!(table.waiting(), []);
    refused(table, 11, |t| round_two(t, 7, &second));
    refused(table, 11, |t| enter(t, 7));
    refused(table, 11, |t| drop(t, 7));
    closed_takes_nothing(table, &first, &second);
}

fn closed_takes_nothing(table: &mut Table, first: &[u8], second: &[u8]) {
    close(table, ROOM).unwrap();
    assert!(table.closed());
    let shares = honest(&[17], 2, 9);
    refused(table, 11, |t| share(t, &shares[0], 100, 0, ONE_BYTES));
    refused(table, 11, |t| round_one(t, 7, first, TWO_BYTES));
    refused(table, 11, |t| round_two(t, 7, second));
    refused(table, 11, |t| enter(t, 7));
    refused(table, 11, |t| drop(t, 7));
    refused(table, 11, |t| close(t, ROOM));
}

/// Joined messages with every kind of fault, one at a time.
fn damaged(joined: &[u8]) -> Vec<Vec<u8>> {
    // Every shorter length, some longer ones.
    let length = message_length(joined);
    let lengths = (0..joined.len()).chain([joined.len() + 1, joined.len() + length]);
    let mut all: Vec<Vec<u8>> = lengths.map(|length| resized(joined, length)).collect();
    for start in [0, length] {
        // Kind, id and server bytes.
        for at in start..start + 6 {
            all.extend((0..8).map(|bit| with(joined, at, &[joined[at] ^ 1 << bit])));
        }
        for at in (start + 6..start + length).step_by(4) {
            all.extend(
                [P32, P32 + 1, u32::MAX].map(|large| with(joined, at, &large.to_le_bytes())),
            );
        }
    }
    all
}

/// Joined messages of two servers as they are and the other way round, with the place of a
/// server's own message.
fn both_orders(joined: &[u8], own: usize) -> [(Vec<u8>, usize); 2] {
    let (one, two) = joined.split_at(message_length(joined));
    [(joined.to_vec(), own), ([two, one].concat(), 1 - own)]
}

/// Joined messages with one of the elements at a place altered, each in turn.
fn altered(joined: &[u8], place: usize) -> Vec<Vec<u8>> {
    let length = message_length(joined);
    let elements = (length * place + 6..length * (place + 1)).step_by(4);
    let changed = elements.map(|at| {
        let old = u32::from_le_bytes(joined[at..at + 4].try_into().unwrap());
        with(joined, at, &((old + 1) % P32).to_le_bytes())
    });
    changed.collect()
}

#[test]
fn joined_rounds() {
    let (mut tables, first) = waiting(&[18, 2], 3);
    for (own, table) in tables.iter_mut().enumerate() {
        for (first, place) in both_orders(&first, own) {
            joined_first(table, &first, place);
        }
    }
    let second = second_round(&mut tables, &first);
    for (own, table) in tables.iter_mut().enumerate() {
        for (second, place) in both_orders(&second, own) {
            joined_second(table, &second, place);
        }
        // The first round's messages again.
        refused(table, 12, |t| round_two(t, 7, &first));
        assert_eq!(round_two(table, 7, &second), Ok(Verdict::Accepted));
    }
}

/// Round one's messages, and faults in them; the own one stands at a place.
fn joined_first(table: &mut Table, first: &[u8], place: usize) {
    for wrong in damaged(first) {
        refused(table, 12, |t| round_one(t, 7, &wrong, TWO_BYTES));
        refused(table, 12, |t| round_one(t, 7, &wrong, 0));
    }
    for wrong in altered(first, place) {
        refused(table, 12, |t| round_one(t, 7, &wrong, TWO_BYTES));
    }
    refused(table, 14, |t| round_one(t, 7, first, TWO_BYTES - 1));
    refused(table, 14, |t| round_one(t, 7, first, 0));
    assert!(round_one(&mut table.clone(), 7, first, TWO_BYTES).is_ok());
    // The others' d and e may be any, their r and s may not.
    let others = altered(first, 1 - place);
    for other in &others[..2] {
        assert!(round_one(&mut table.clone(), 7, other, TWO_BYTES).is_ok());
    }
    for other in &others[2..] {
        refused(table, 16, |t| round_one(t, 7, other, TWO_BYTES));
        refused(table, 16, |t| round_one(t, 7, other, 0));
    }
}

/// The same for round two.
fn joined_second(table: &mut Table, second: &[u8], place: usize) {
    for wrong in damaged(second) {
        refused(table, 12, |t| round_two(t, 7, &wrong));
    }
    for wrong in altered(second, place) {
        refused(table, 12, |t| round_two(t, 7, &wrong));
    }
    let verdict = |joined: &[u8]| round_two(&mut table.clone(), 7, joined);
    assert_eq!(verdict(second), Ok(Verdict::Accepted));
    for other in altered(second, 1 - place) {
        assert_eq!(verdict(&other), Ok(Verdict::Rejected));
    }
}

#[test]
fn decided_ids_and_the_limit() {
    let sheet = [17];
    let mut tables = open_all(2, &sheet, 3);
    let entered = honest(&sheet, 2, 1);
    assert_eq!(take(&mut tables, &entered, 5, 1), Verdict::Accepted);
    let mut rejected = honest(&sheet, 2, 2);
    let last = rejected[0].len() - 4;
    let c = (u32::from_le_bytes(rejected[0][last..].try_into().unwrap()) + 1) % P32;
    rejected[0][last..].copy_from_slice(&c.to_le_bytes());
    assert_eq!(take(&mut tables, &rejected, 5, 1), Verdict::Rejected);
    // Entered and rejected ids are used; so are dropped ones.
    for (server, table) in tables.iter_mut().enumerate() {
        refused(table, 10, |t| share(t, &entered[server], 5, 1, ONE_BYTES));
        refused(table, 10, |t| share(t, &rejected[server], 5, 1, ONE_BYTES));
        let third = honest(&sheet, 2, 3);
        share(table, &third[server], 5, 1, ONE_BYTES).unwrap();
        drop(table, 3).unwrap();
        assert_eq!(table.decided(), [1, 2, 3]);
        // All three count towards N.
        refused(table, 13, |t| share(t, &third[server], 5, 1, ONE_BYTES));
        refused(table, 13, |t| {
            share(t, &honest(&sheet, 2, 4)[server], 5, 1, ONE_BYTES)
        });
    }
    // A dropped id is refused 10 while N is not reached.
    let mut table = open(2, 0, &sheet, 2, 1).unwrap();
    share(&mut table, &entered[0], 5, 1, ONE_BYTES).unwrap();
    drop(&mut table, 1).unwrap();
    refused(&mut table, 10, |t| share(t, &entered[0], 5, 1, ONE_BYTES));
}
