//! Damaged tables: the records of the waiting list and the run of numbers. The limits are told here by hand.

use second::gen::Rng;

use crate::calls::{Call, Function};
use crate::fixture::{other, other_stage, Fixture, NEXT};
use crate::layout::{read, Parts, Slot, AWAITS_ENTRY, AWAITS_ONE, FREE, SLOTS};
use crate::reference::{own_message, ONE_BYTES};
use crate::suite::{Suite, Verdict};
use crate::tables::{all_calls, changed, fixtures, refused, taken};

const P: u64 = 2_147_483_647;

/// Not eight records, whatever they hold: refused 11 by every call. One more or fewer at either end.
pub fn counts(suite: &mut Suite) -> Verdict {
    for fixture in fixtures(suite)? {
        let calls = fixture.calls();
        for table in fixture.stages() {
            for count in [0, 1, 2, 7, 9, 10, 16, 64] {
                refused(suite, &calls, &table.with(|t| t.slots.resize(count, Slot::default())))?;
            }
            refused(suite, &calls, &table.with(|t| t.slots.insert(0, Slot::default())))?;
            refused(suite, &calls, &table.with(|t| t.slots.push(t.slots[7])))?;
            refused(suite, &calls, &table.with(|t| t.slots.rotate_left(1)).with(|t| t.slots.truncate(7)))?;
        }
    }
    Ok(())
}

/// Numbers one short, and at every other length below: 11. A longer run works, and the rest is kept.
pub fn runs(suite: &mut Suite) -> Verdict {
    for fixture in fixtures(suite)? {
        let calls = fixture.calls();
        for table in fixture.stages() {
            let needed = table.elements.len();
            for length in (0..needed).step_by(7).chain([needed - 1]) {
                refused(suite, &calls, &table.with(|t| t.elements.truncate(length)))?;
            }
            for more in [1, 2, 100] {
                all_calls(suite, &calls, &table.with(|t| t.elements.extend(vec![u32::MAX; more])))?;
            }
        }
        taken(suite, &fixture, |table| table.elements.extend([0x8000_0000, 7]))?;
    }
    Ok(())
}

/// A record that waits within the limits, at this stage.
fn waits(fixture: &Fixture, stage: u32) -> Slot {
    Slot { id: 91, stage, r: fixture.multiplications + 1, s: 5, d: 6, e: 7 }
}

/// Sets a field of a record by its number.
fn set(slot: &mut Slot, field: usize, number: u64) {
    match field {
        0 => slot.r = number,
        1 => slot.s = number,
        2 => slot.d = number,
        _ => slot.e = number,
    }
}

/// Tables with room for one more return at least: in `idle` one is decided, and nothing waits and N = 9, or seven others
/// wait and N = 12.
fn roomy(suite: &mut Suite) -> Result<[Fixture; 3], String> {
    Ok([
        Fixture::new(suite, 2, 0, &[17], 9)?,
        Fixture::new(suite, 3, 2, &[18, 2, 19, 2], 9)?,
        Fixture::among(suite, 2, 1, &[19, 2], 12, 3)?,
    ])
}

/// Every field of every record at both sides of its limit, in every stage. A free record may hold anything.
pub fn fields(suite: &mut Suite) -> Verdict {
    for fixture in roomy(suite)? {
        let (calls, m) = (fixture.calls(), fixture.multiplications);
        let below = [(0, true), (1, true), (P - 1, true), (P, false), (P + 1, false)];
        let wide = [1 << 31, (1 << 32) - 1, 1 << 32, (1 << 32) + m + 1, 1 << 63, u64::MAX].map(|x| (x, false));
        let mut element: Vec<(u64, bool)> = below.to_vec();
        element.extend(wide);
        let mut range = vec![(0, false), (m, false), (m + 1, true), (2 * m + 1, true), (P - 1, true), (P, false)];
        range.extend(wide);
        for (record, stage) in (0..SLOTS).flat_map(|record| (FREE..=AWAITS_ENTRY).map(move |s| (record, s))) {
            let base = fixture.idle.with(|t| t.slots[record] = waits(&fixture, stage));
            changed(suite, &calls, &base, true, |_| ())?;
            for field in 0..4 {
                for &(number, good) in if field == 0 { &range } else { &element } {
                    changed(suite, &calls, &base, good || stage == FREE, |t| {
                        set(&mut t.slots[record], field, number);
                    })?;
                }
            }
            for id in [0, 1, NEXT, other(record), P as u32, u32::MAX] {
                changed(suite, &calls, &base, true, |t| t.slots[record].id = id)?;
            }
        }
    }
    Ok(())
}

/// Every record's stage: 0 to 3 and nothing else, whatever else it holds.
pub fn stages(suite: &mut Suite) -> Verdict {
    let stages = [4, 5, 127, 255, 256, 257, 259, 1 << 16, (1 << 24) + 3, 1 << 31, (1 << 31) + 1, u32::MAX];
    for fixture in roomy(suite)? {
        let calls = fixture.calls();
        for record in 0..SLOTS {
            let base = fixture.idle.with(|t| t.slots[record] = waits(&fixture, AWAITS_ONE));
            for stage in FREE..=AWAITS_ENTRY {
                changed(suite, &calls, &base, true, |t| t.slots[record].stage = stage)?;
            }
            for stage in stages {
                changed(suite, &calls, &base, false, |t| t.slots[record].stage = stage)?;
                changed(suite, &calls, &base, false, |t| t.slots[record] = Slot { stage, ..Slot::default() })?;
            }
            // A record of zeros that waits has no r above M.
            for stage in AWAITS_ONE..=AWAITS_ENTRY {
                changed(suite, &calls, &base, false, |t| t.slots[record] = Slot { stage, ..Slot::default() })?;
            }
        }
    }
    Ok(())
}

/// Every number of every place at both sides of p: sound below p, and from p on only where the record is free.
pub fn elements(suite: &mut Suite) -> Verdict {
    let numbers = [0, 1, P - 1, P, P + 1, (1 << 32) - 1];
    for fixture in roomy(suite)? {
        let calls = fixture.calls();
        for table in [&fixture.idle, &fixture.first, &fixture.second, &fixture.third] {
            let place = read(table)?.at.place;
            for at in 0..table.elements.len() {
                let free = table.slots[at / place].stage == FREE;
                for number in numbers {
                    let good = number < P || free;
                    changed(suite, &calls, table, good, |t| t.elements[at] = number as u32)?;
                }
            }
        }
    }
    Ok(())
}

/// How many may wait: with N = 8 and none, one or two decided, any so many records.
pub fn taken_room(suite: &mut Suite) -> Verdict {
    let fixture = Fixture::new(suite, 2, 0, &[17], 8)?;
    let calls = fixture.calls();
    for (decided, mask) in (0..=2).flat_map(|decided| (0..256u32).map(move |mask| (decided, mask))) {
        let good = decided + mask.count_ones() as usize <= 8;
        changed(suite, &calls, &fixture.idle, good, |t| {
            t.bytes[6] = decided as u8;
            t.bytes[8] = 0;
            for record in (0..SLOTS).filter(|record| mask >> record & 1 == 1) {
                let stage = other_stage(record);
                t.slots[record] = Slot { id: 600 + record as u32, ..waits(&fixture, stage) };
            }
        })?;
    }
    Ok(())
}

/// Fills what is free in a table: free records but for their stage, and their places.
fn fill(rng: &mut Rng, table: &Parts, byte: Option<u8>) -> Parts {
    let mut filled = table.clone();
    let place = filled.elements.len() / SLOTS;
    let mut number = || byte.map_or_else(|| rng.next_u64(), |byte| u64::from_ne_bytes([byte; 8]));
    for record in (0..SLOTS).filter(|&record| table.slots[record].stage == FREE) {
        let [id, r, s, d, e] = [(); 5].map(|()| number());
        filled.slots[record] = Slot { id: id as u32, stage: FREE, r, s, d, e };
        filled.elements[record * place..(record + 1) * place].fill_with(|| number() as u32);
    }
    filled
}

/// What is free is not read: a share is taken over it, rounds, enter, drop and close leave it.
pub fn free(suite: &mut Suite) -> Verdict {
    for fixture in fixtures(suite)? {
        let mut rng = suite.seed(800 + fixture.record as u64);
        let mut calls = fixture.on_next();
        if fixture.idle.waiting() == 0 {
            calls.push(fixture.close());
        }
        for (call, byte) in
            calls.into_iter().flat_map(|call| [Some(1), Some(127), Some(255), None].map(|b| (call.clone(), b)))
        {
            let table = fill(&mut rng, &call.table, byte);
            suite.number(&Call { table, ..call }, 0)?;
        }
        // A free record may have the id that a share brings, or that a call names.
        for record in (0..SLOTS).filter(|&record| fixture.idle.slots[record].stage == FREE) {
            let named = |t: &mut Parts| t.slots[record].id = NEXT;
            suite.number(&Call { table: fixture.idle.with(named), ..fixture.share() }, 0)?;
            for call in fixture.on_next().into_iter().skip(1) {
                suite.number(&Call { table: fixture.idle.with(named), ..call }, 11)?;
            }
        }
    }
    Ok(())
}

/// Numbers that do not belong to the share make round messages of their own.
pub fn own(suite: &mut Suite) -> Verdict {
    for fixture in fixtures(suite)? {
        let table = read(&fixture.first)?;
        let (record, share) = (fixture.record, table.at.share);
        let more = |number: u64| (number + 5) % P;
        for k in 0..6 {
            let first = fixture.first.with(|t| match k {
                0 => t.slots[record].d = more(t.slots[record].d),
                1 => t.slots[record].e = more(t.slots[record].e),
                2 => t.slots[record].r = more(t.slots[record].r),
                3 => t.slots[record].s = more(t.slots[record].s),
                _ => {
                    let number = &mut table.place_mut(t, record)[share + k - 4];
                    *number = more(u64::from(*number)) as u32;
                }
            });
            // The own message now holds the changed d, e, r or s; the others' r and s differ then.
            let own = own_message(&table, &first, record);
            let mut call = Call { table: first, ..fixture.round_one() };
            suite.number(&call, if k < 4 { 12 } else { 0 })?;
            let place = ONE_BYTES * table.own as usize;
            call.message[place..place + ONE_BYTES].copy_from_slice(&own);
            suite.number(&call, if k == 2 || k == 3 { 16 } else { 0 })?;
            call.message.chunks_mut(ONE_BYTES).for_each(|message| message[14..].copy_from_slice(&own[14..]));
            suite.number(&call, 0)?;
        }
    }
    Ok(())
}

/// An id that waits in two records, in any two stages: the first of them counts.
pub fn twice(suite: &mut Suite) -> Verdict {
    let stages = (AWAITS_ONE..=AWAITS_ENTRY).flat_map(|one| (AWAITS_ONE..=AWAITS_ENTRY).map(move |two| (one, two)));
    for fixture in roomy(suite)?.into_iter().filter(|fixture| fixture.idle.waiting() == 0) {
        for (early, late) in (0..SLOTS).flat_map(|late| (0..late).map(move |early| (early, late))) {
            stages.clone().try_for_each(|stages| in_two(suite, &fixture, [early, late], stages))?;
        }
    }
    Ok(())
}

/// NEXT waits in two records, in these stages.
fn in_two(suite: &mut Suite, fixture: &Fixture, records: [usize; 2], (one, two): (u32, u32)) -> Verdict {
    let place = fixture.idle.elements.len() / SLOTS;
    let table = fixture.idle.with(|t| {
        for (record, stage) in records.into_iter().zip([one, two]) {
            let from = [&fixture.first, &fixture.second, &fixture.third][stage as usize - 1];
            t.slots[record] = from.slots[0];
            t.elements[record * place..(record + 1) * place].copy_from_slice(&from.elements[..place]);
        }
    });
    for (stage, call) in (1..).zip([fixture.round_one(), fixture.round_two(), fixture.enter()]) {
        suite.number(&Call { table: table.clone(), ..call }, if stage == one { 0 } else { 11 })?;
    }
    for function in [Function::Drop, Function::Enter] {
        let call = Call { table: table.clone(), id: NEXT, ..Call::of(function) };
        let Ok(done) = suite.check(&call)? else {
            continue;
        };
        if done.table.record(NEXT) != Some(records[1]) {
            return Err(suite.failure(&call, "not the first record of the id that is decided"));
        }
    }
    suite.number(&Call { table, ..fixture.share() }, 10)
}
