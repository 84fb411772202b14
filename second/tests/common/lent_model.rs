//! Lent tables at every stage, and a plain reading of which tables obey the limits.

use super::lent_table::{Lent, LONGEST};
use super::{id_of, ONE_BYTES, TWO_BYTES};
use second::field::{self, P};
use second::gen::{Answer, Call, Origin, Return, Rng, Server};
use second::lent::{self, Slot};
use second::{table, Sheet, Verdict};

/// Tables with a return entered and one rejected: nothing waits, 3 awaits round one, 5 awaits
/// round two, 6 awaits entry, all three with a free record between, and closed. Then calls of
/// which each of them takes one, but for the closed one: share, both rounds, enter, drops, close.
pub struct Stages {
    pub tables: Vec<Lent>,
    pub calls: Vec<Call>,
}

pub fn stages(sheet: &[u8], limit: u32) -> Stages {
    let shape = Sheet::read(sheet).unwrap();
    let mut rng = Rng::new(43);
    let mut make = |id, origin| Return::random(&mut rng, &shape, 2, id, origin);
    let lents = (0..2).map(|own| Lent::open(2, own, sheet, limit, 1).unwrap());
    let mut lents: Vec<Lent> = lents.collect();
    judged(&mut lents, &make(1, Origin::Honest), Verdict::Accepted);
    for lent in &mut lents {
        assert_eq!(lent.call(&Call::Enter { id: 1 }), Answer::Entered);
    }
    judged(&mut lents, &make(2, Origin::FalseTriple), Verdict::Rejected);
    let returns = [3, 4, 5, 6, 9].map(|id| make(id, Origin::Honest));
    of_tables(&lents, &returns)
}

/// The stages that come of tables, with the returns 3, 4, 5, 6 and 9.
fn of_tables(lents: &[Lent], [third, fourth, fifth, sixth, ninth]: &[Return; 5]) -> Stages {
    let mut of_third = lents.to_vec();
    let one = shared(&mut of_third, third);
    let mut of_fifth = lents.to_vec();
    let before = shared(&mut of_fifth, fifth);
    let two = first_round(&mut of_fifth, &before);
    let mut of_sixth = lents.to_vec();
    judged(&mut of_sixth, sixth, Verdict::Accepted);
    let mut all = lents.to_vec();
    for given in [third, fourth, fifth] {
        shared(&mut all, given);
    }
    judged(&mut all, sixth, Verdict::Accepted);
    assert_eq!(all[0].call(&Call::Drop { id: 4 }), Answer::Dropped);
    first_round(&mut all, &before);
    let close = Call::Close { room: LONGEST };
    let mut closed = lents[0].clone();
    message(closed.call(&close));

    let [of_third, of_fifth, of_sixth, all] =
        [of_third, of_fifth, of_sixth, all].map(|mut tables| tables.swap_remove(0));
    let mut calls = vec![share(ninth, 0), one, two, Call::Enter { id: 6 }];
    calls.extend([3, 5, 6].map(|id| Call::Drop { id }));
    calls.push(close);
    Stages {
        tables: vec![lents[0].clone(), of_third, of_fifth, of_sixth, all, closed],
        calls,
    }
}

fn share(given: &Return, own: usize) -> Call {
    Call::Share {
        message: given.shares[own].clone(),
        r: given.r,
        s: given.s,
        room: ONE_BYTES,
    }
}

/// A return's shares at both servers; gives round one's call.
fn shared(lents: &mut [Lent], given: &Return) -> Call {
    let tables = lents.iter_mut().enumerate();
    let joined = tables.flat_map(|(own, lent)| message(lent.call(&share(given, own))));
    Call::RoundOne {
        id: given.id,
        joined: joined.collect(),
        room: TWO_BYTES,
    }
}

/// Round one at both servers; gives round two's call.
fn first_round(lents: &mut [Lent], one: &Call) -> Call {
    let joined = lents.iter_mut().flat_map(|lent| message(lent.call(one)));
    let joined: Vec<u8> = joined.collect();
    Call::RoundTwo {
        id: id_of(&joined),
        joined,
    }
}

fn judged(lents: &mut [Lent], given: &Return, verdict: Verdict) {
    let one = shared(lents, given);
    let two = first_round(lents, &one);
    for lent in lents {
        assert_eq!(lent.call(&two), Answer::Verdict(verdict));
    }
}

fn message(answer: Answer) -> Vec<u8> {
    match answer {
        Answer::Message(message) => message,
        other => panic!("{other:?}"),
    }
}

/// The records that wait in a table that obeys the limits and is open, read from the layout
/// that `lent` tells.
pub fn sound(table: &Lent) -> Option<Vec<Slot>> {
    let bytes = &table.bytes[..];
    let pair = |at: usize| Some(u32::from(*bytes.get(at)?) + 256 * u32::from(*bytes.get(at + 1)?));
    let (limit, decided, entered, least) = (pair(4)?, pair(6)?, pair(8)?, pair(10)?);
    let end = 14 + pair(12)? as usize;
    let sheet = bytes.get(14..end)?;
    table::open(bytes[2].into(), bytes[3].into(), sheet, limit, least).ok()?;
    let sheet = Sheet::read(sheet).ok()?;
    let totals = end + 4 * sheet.published();
    field::elements(bytes.get(end..totals)?)?;
    bytes.get(..totals + 4 * limit as usize)?;
    let width = sheet.share_elements() + 2;
    let numbers = table.numbers.get(..8 * width)?;
    let mut waiting = Vec::new();
    for (slot, place) in table.slots.iter().zip(numbers.chunks(width)) {
        if slot.stage == 0 {
            continue;
        }
        let in_range = slot.r > sheet.multiplications() as u64
            && [slot.r, slot.s, slot.d, slot.e].iter().all(|&n| n < P)
            && place.iter().all(|&n| u64::from(n) < P);
        (slot.stage <= 3 && in_range).then_some(())?;
        waiting.push(*slot);
    }
    let counts = entered <= decided && decided + waiting.len() as u32 <= limit;
    let head = bytes[0] == 3 && bytes[1] == 0;
    (table.slots.len() == 8 && counts && head).then_some(waiting)
}

/// Whether a call is not refused 11 by a table that obeys the limits.
fn allowed(waiting: &[Slot], call: &Call) -> bool {
    let stage = |id: u32| waiting.iter().find(|slot| slot.id == id).map(|s| s.stage);
    match call {
        Call::Share { .. } => waiting.len() < 8,
        Call::RoundOne { id, .. } => stage(*id) == Some(1),
        Call::RoundTwo { id, .. } => stage(*id) == Some(2),
        Call::Enter { id } => stage(*id) == Some(3),
        Call::Drop { id } => stage(*id).is_some(),
        Call::Close { .. } => waiting.is_empty(),
    }
}

/// Which calls are not refused 11 by a table, and that a refusal changes nothing.
pub fn taken(table: &Lent, calls: &[Call]) -> Vec<bool> {
    let table = refitted(table);
    let takes = |call| table.clone().call(call) != Answer::Refused(11);
    calls.iter().map(takes).collect()
}

/// The table with the lengths that its bytes tell, which may be others than it was opened with.
fn refitted(table: &Lent) -> Lent {
    let told = || {
        let pair = |at| Some(u16::from_le_bytes(*table.bytes.get(at..)?.first_chunk()?));
        let sheet = table.bytes.get(14..14 + usize::from(pair(12)?))?;
        let length = lent::length(sheet, pair(4)?.into()).ok()?;
        Some((length, lent::run_length(sheet).ok()?))
    };
    let (length, run) = told().unwrap_or((0, 0));
    Lent {
        length: length.min(table.bytes.len()),
        run: run.min(table.numbers.len()),
        ..table.clone()
    }
}

/// A table is refused 11 by every call, or obeys the limits and takes what its stages allow.
/// Tells which.
pub fn check(table: &Lent, calls: &[Call]) -> bool {
    let waiting = sound(table);
    let allows = |call| waiting.as_ref().is_some_and(|w| allowed(w, call));
    let expected: Vec<bool> = calls.iter().map(allows).collect();
    assert_eq!(taken(table, calls), expected, "{table:?}");
    waiting.is_some()
}

/// The table with something changed.
pub fn changed(table: &Lent, change: impl FnOnce(&mut Lent)) -> Lent {
    let mut table = table.clone();
    change(&mut table);
    table
}

/// The table with a number of two bytes at a place.
pub fn put(table: &Lent, at: usize, number: u16) -> Lent {
    let bytes = number.to_le_bytes();
    changed(table, |t| t.bytes[at..at + 2].copy_from_slice(&bytes))
}
