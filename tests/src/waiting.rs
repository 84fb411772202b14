//! Eight returns waiting, told by hand: what is refused, which record a share gets, what decides a return and what it
//! leaves.

use crate::calls::{Call, Function};
use crate::fixture::other_stage;
use crate::hall::{after, id, Hall, NOBODY, OWN, R};
use crate::layout::{put_word, read, word, Slot, AWAITS_ENTRY, AWAITS_ONE, AWAITS_TWO, SLOTS};
use crate::reference::ONE_BYTES;
use crate::suite::{Suite, Verdict};

/// A ninth share is refused 11 and not 13, whatever else is wrong with it, and taken when a record is free again.
pub fn ninth(suite: &mut Suite) -> Verdict {
    for returns in [8, 9, 10, 1024] {
        let mut hall = Hall::of(suite, 2, &[17], returns, 8)?;
        let call = hall.share(suite, NOBODY)?;
        suite.number(&call, 11)?;
        suite.number(&Call { r: 0, ..call.clone() }, 11)?;
        suite.number(&Call { room: 0, ..call.clone() }, 11)?;
        suite.number(&Call { message: Vec::new(), ..call.clone() }, 11)?;
        suite.number(&Call { message: hall.shares[3][OWN].clone(), ..call.clone() }, 11)?;
        for record in 0..SLOTS {
            let table = after(suite, &hall.decide(record))?;
            suite.number(&Call { table, ..call.clone() }, if returns == 8 { 13 } else { 0 })?;
        }
    }
    Ok(())
}

/// 13 where the decided and the waiting are N, and not before.
pub fn full(suite: &mut Suite) -> Verdict {
    for (returns, waiting) in (1..=9).flat_map(|returns| (0..SLOTS).map(move |waiting| (returns, waiting))) {
        if waiting > returns as usize {
            continue;
        }
        let mut hall = Hall::of(suite, 2, &[17], returns, waiting)?;
        for decided in 0..=returns - waiting as u32 {
            let call = hall.share(suite, NOBODY + decided)?;
            let number = if decided + waiting as u32 == returns { 13 } else { 0 };
            suite.number(&call, number)?;
            // However broken the share is, and under an id that waits.
            if number == 13 {
                suite.number(&Call { message: Vec::new(), ..call.clone() }, 13)?;
                suite.number(&Call { r: 0, room: 0, ..call.clone() }, 13)?;
                for shares in &hall.shares {
                    suite.number(&Call { message: shares[OWN].clone(), ..call.clone() }, 13)?;
                }
                continue;
            }
            let shares = hall.pool.make_zeros(suite, &mut hall.rng, NOBODY + decided)?;
            hall.pool.share(suite, &shares, R, 3)?;
            hall.pool.drop(suite, NOBODY + decided)?;
        }
    }
    Ok(())
}

/// An id that waits, in any record and stage, is refused 10: after 8, before 9 and 14. It stays used when it is decided.
pub fn used(suite: &mut Suite) -> Verdict {
    let mut hall = Hall::of(suite, 3, &[17, 19, 2], 20, 7)?;
    let mut call = hall.share(suite, NOBODY)?;
    suite.number(&call, 0)?;
    for record in 0..7 {
        put_word(&mut call.message, 1, id(record).into());
        suite.number(&call, 10)?;
        suite.number(&Call { r: 0, s: u64::MAX, ..call.clone() }, 10)?;
        suite.number(&Call { room: 0, ..call.clone() }, 10)?;
        let mut wrong = call.clone();
        put_word(&mut wrong.message, 10, 2_147_483_647);
        suite.number(&wrong, 8)?;
        // One bit more makes another id.
        for bit in [0, 9, 18, 31] {
            let mut other = call.clone();
            put_word(&mut other.message, 1, (id(record) ^ 1 << bit).into());
            suite.number(&other, 0)?;
        }
        let table = after(suite, &hall.decide(record))?;
        suite.number(&Call { table, ..call.clone() }, 10)?;
    }
    Ok(())
}

/// A round or an entry is taken under the ids that await it: 11 under those that await another, are decided or unknown.
pub fn stages(suite: &mut Suite) -> Verdict {
    for servers in [2, 5, 8] {
        let hall = Hall::of(suite, servers, &[18, 2], 20, 8)?;
        for record in 0..SLOTS {
            let named = |id: u32| {
                let rounds = [Function::RoundOne, Function::RoundTwo].map(|function| hall.round(function, id, record));
                rounds.into_iter().chain([hall.enter(id)])
            };
            for (stage, call) in (1..).zip(named(id(record))) {
                suite.number(&call, if stage == other_stage(record) { 0 } else { 11 })?;
            }
            for bit in [0, 15, 31] {
                let other = id(record) ^ 1 << bit;
                for call in named(other).chain([hall.drop(other)]) {
                    suite.number(&call, 11)?;
                }
            }
            let table = after(suite, &hall.decide(record))?;
            for call in named(id(record)).chain([hall.drop(id(record))]) {
                suite.number(&Call { table: table.clone(), ..call }, 11)?;
            }
        }
    }
    Ok(())
}

/// Messages of another id than the named one, which waits too, are 12; in another stage than the round's 11.
pub fn others(suite: &mut Suite) -> Verdict {
    let hall = Hall::of(suite, 3, &[17], 20, 8)?;
    for (named, of) in (0..SLOTS).flat_map(|named| (0..SLOTS).map(move |of| (named, of))) {
        for (function, stage) in [(Function::RoundOne, AWAITS_ONE), (Function::RoundTwo, AWAITS_TWO)] {
            let number = match (other_stage(named) == stage, named == of) {
                (false, _) => 11,
                (true, false) => 12,
                (true, true) => 0,
            };
            suite.number(&hall.round(function, id(named), of), number)?;
        }
        // One server's message of another id.
        let mut call = hall.round(Function::RoundOne, id(named), named);
        call.message[2 * ONE_BYTES..].copy_from_slice(&hall.joined_one[of][2 * ONE_BYTES..]);
        let number = if other_stage(named) == AWAITS_ONE { 12 * u32::from(named != of) } else { 11 };
        suite.number(&call, number)?;
    }
    Ok(())
}

/// A close is refused while one return waits, in whichever record and stage, and done when it is decided.
pub fn closing(suite: &mut Suite) -> Verdict {
    let mut hall = Hall::of(suite, 2, &[17, 18, 2], 9, 8)?;
    let all = hall.pool.tables.clone();
    suite.number(&hall.close(hall.table()), 11)?;
    for record in 0..SLOTS {
        hall.pool.tables.clone_from(&all);
        for other in (0..SLOTS).filter(|&other| other != record) {
            hall.pool.tables[OWN] = after(suite, &hall.decide(other))?;
        }
        suite.number(&hall.close(hall.table()), 11)?;
        suite.number(&Call { room: 0, ..hall.close(hall.table()) }, 11)?;
        let table = after(suite, &hall.decide(record))?;
        suite.number(&Call { room: 0, ..hall.close(table.clone()) }, 14)?;
        let closed = after(suite, &hall.close(table))?;
        suite.number(&hall.close(closed), 11)?;
    }
    Ok(())
}

/// A decided return frees the record that was named and no other: it and its place are 0, all others as they were.
pub fn freed(suite: &mut Suite) -> Verdict {
    for (servers, sheet) in [(2, vec![17]), (3, vec![19, 4, 17]), (8, vec![18, 3])] {
        let hall = Hall::of(suite, servers, &sheet, 9, 8)?;
        let before = hall.table();
        let place = before.elements.len() / SLOTS;
        for record in 0..SLOTS {
            for call in [hall.drop(id(record)), hall.decide(record)] {
                let mut must = before.clone();
                must.slots[record] = Slot::default();
                must.elements[record * place..(record + 1) * place].fill(0);
                let table = after(suite, &call)?;
                if table.slots != must.slots || table.elements != must.elements {
                    return Err(suite.failure(&call, &format!("{table}\nmust be {must}")));
                }
            }
        }
    }
    Ok(())
}

/// A share goes into the first free record and its place, whichever are free; the other records and places stay.
pub fn first_free(suite: &mut Suite) -> Verdict {
    let mut hall = Hall::of(suite, 2, &[17], 17, 8)?;
    let all = hall.table();
    let place = all.elements.len() / SLOTS;
    for mask in 1..256u32 {
        hall.pool.tables[OWN].clone_from(&all);
        for record in (0..SLOTS).filter(|record| mask >> record & 1 == 1) {
            hall.pool.tables[OWN] = after(suite, &hall.decide(record))?;
        }
        let call = hall.share(suite, NOBODY)?;
        let table = after(suite, &call)?;
        let first = mask.trailing_zeros() as usize;
        let slot = table.slots[first];
        let share: Vec<u8> = table.elements[first * place..].iter().flat_map(|number| number.to_le_bytes()).collect();
        let mut must = call.table.clone();
        must.slots[first] = slot;
        must.elements[first * place..(first + 1) * place].copy_from_slice(&table.elements[first * place..][..place]);
        let filled = (slot.id, slot.stage, slot.r, slot.s) == (NOBODY, AWAITS_ONE, R, 3);
        if table != must || !filled || !share.starts_with(&call.message[6..]) {
            return Err(suite.failure(&call, &format!("{table}\nmust be in record {first} only")));
        }
    }
    Ok(())
}

/// What the records tell: d and e are the own ones after a share, the sums after round one and after an accepted verdict.
/// Both change one record and nothing else.
pub fn told(suite: &mut Suite) -> Verdict {
    let hall = Hall::of(suite, 3, &[17, 18, 3], 9, 8)?;
    let table = hall.table();
    for record in 0..SLOTS {
        let joined = &hall.joined_one[record];
        let pair = |server: usize| [6, 10].map(|at| word(joined, ONE_BYTES * server + at));
        let sums = [0, 1].map(|k| (0..3).map(|server| pair(server)[k]).sum::<u64>() % 2_147_483_647);
        let first =
            Slot { id: id(record), stage: AWAITS_ONE, r: R + record as u64, s: 19, d: pair(OWN)[0], e: pair(OWN)[1] };
        let second = Slot { stage: AWAITS_TWO, d: sums[0], e: sums[1], ..first };
        let third = Slot { stage: AWAITS_ENTRY, ..second };
        let must = [first, second, third][other_stage(record) as usize - 1];
        if table.slots[record] != must {
            return Err(format!("record {record} is {:?}\nmust be {must:?}", table.slots[record]));
        }
        let changed = match other_stage(record) {
            AWAITS_ONE => second,
            AWAITS_TWO => third,
            _ => continue,
        };
        let call = hall.next(record);
        let next = after(suite, &call)?;
        if next != table.with(|t| t.slots[record] = changed) {
            return Err(suite.failure(&call, &format!("{next}\nmust change record {record} only")));
        }
    }
    read(&table).map(|_| ())
}
