//! Damaged tables: their bytes. What a call does is told by the layout's rule; the limits are told here by hand as well.

use crate::calls::{Call, Function};
use crate::damage::damaged;
use crate::fixture::Fixture;
use crate::layout::{id_of, put_short, put_word, read, sound, Parts, Slot};
use crate::reference::TWO_BYTES;
use crate::suite::{Suite, Verdict};
use crate::tops::top_column;

const P: u64 = 2_147_483_647;

/// All six calls on a table, each with the arguments that fit its own stage, and its state.
pub fn all_calls(suite: &mut Suite, calls: &[Call], table: &Parts) -> Verdict {
    for call in calls {
        suite.agrees(&Call { table: table.clone(), ..call.clone() })?;
    }
    suite.agrees(&Call::state_of(table))
}

/// All six calls refuse a table.
pub fn refused(suite: &mut Suite, calls: &[Call], table: &Parts) -> Verdict {
    calls.iter().try_for_each(|call| suite.number(&Call { table: table.clone(), ..call.clone() }, 11))
}

/// The call that a stage takes is done with a change of its table: share, both rounds, enter, drop.
pub fn taken(suite: &mut Suite, fixture: &Fixture, change: impl Fn(&mut Parts)) -> Verdict {
    for call in fixture.on_next() {
        suite.number(&Call { table: call.table.with(&change), ..call }, 0)?;
    }
    Ok(())
}

/// A table with one change, which is sound or is refused by every call.
pub fn changed(suite: &mut Suite, calls: &[Call], table: &Parts, good: bool, change: impl Fn(&mut Parts)) -> Verdict {
    let damaged = table.with(change);
    if sound(&damaged).is_some() != good {
        return Err(format!("the layout's rule says {} of {damaged}", !good));
    }
    if !good {
        suite.number(&Call::state_of(&damaged), 11)?;
        return refused(suite, calls, &damaged);
    }
    all_calls(suite, calls, &damaged)
}

/// Fixtures of small and larger sheets: no other return waits, or others do.
pub fn fixtures(suite: &mut Suite) -> Result<Vec<Fixture>, String> {
    let alone: [(u32, usize, &[u8], u32); 4] =
        [(2, 0, &[17], 2), (3, 1, &[18, 2, 19, 1], 3), (8, 7, &[19, 3, 17], 4), (2, 1, &[20, 2, 0, 0, 0], 2)];
    let mut all = Vec::new();
    for (servers, own, sheet, returns) in alone {
        all.push(Fixture::new(suite, servers, own, sheet, returns)?);
    }
    all.push(Fixture::among(suite, 2, 1, &[17], 9, 7)?);
    all.push(Fixture::among(suite, 3, 0, &[19, 1, 17], 12, 2)?);
    Ok(all)
}

/// Every byte of the header and the sheet set to every value, in every stage.
pub fn headers(suite: &mut Suite) -> Verdict {
    for fixture in fixtures(suite)? {
        let calls = fixture.calls();
        for table in fixture.stages() {
            let end = 14 + usize::from(table.bytes[12]);
            for (at, value) in (0..end).flat_map(|at| (0..=255).map(move |value| (at, value))) {
                all_calls(suite, &calls, &table.with(|table| table.bytes[at] = value))?;
            }
        }
    }
    Ok(())
}

/// Every byte after the sheet set to a few values, in every stage.
pub fn bodies(suite: &mut Suite) -> Verdict {
    for fixture in fixtures(suite)? {
        let calls = fixture.calls();
        for table in fixture.stages() {
            for at in 14 + usize::from(table.bytes[12])..table.bytes.len() {
                let old = table.bytes[at];
                for value in [0, 1, 127, 128, 255, old ^ 1, old ^ 128] {
                    all_calls(suite, &calls, &table.with(|table| table.bytes[at] = value))?;
                }
            }
        }
    }
    Ok(())
}

/// Bytes cut short are refused 11 at every length; in a longer slice they work, and the rest is kept.
pub fn lengths(suite: &mut Suite) -> Verdict {
    for fixture in fixtures(suite)? {
        let calls = fixture.calls();
        for table in fixture.stages() {
            for length in 0..table.bytes.len() {
                refused(suite, &calls, &table.with(|table| table.bytes.truncate(length)))?;
            }
            for more in [1, 3, 4, 100] {
                all_calls(suite, &calls, &table.with(|table| table.bytes.extend(vec![0xA5; more])))?;
            }
        }
        taken(suite, &fixture, |_| ())?;
        taken(suite, &fixture, |table| table.bytes.extend([1; 77]))?;
    }
    Ok(())
}

/// Header numbers at both sides. 1 and 2 were the first bytes of the tables of earlier layouts.
pub fn header_limits(suite: &mut Suite) -> Verdict {
    for fixture in fixtures(suite)? {
        let calls = fixture.calls();
        for table in fixture.stages() {
            let (all, own) = (table.bytes[2], table.bytes[3]);
            for kind in [0, 1, 2, 4, 36, 255] {
                changed(suite, &calls, table, false, |t| t.bytes[0] = kind)?;
            }
            for stage in [2, 3, 127, 128, 255] {
                changed(suite, &calls, table, false, |t| t.bytes[1] = stage)?;
            }
            refused(suite, &calls, &table.with(|t| t.bytes[1] = 1))?;
            for (servers, good) in [(0, false), (1, false), (own.max(1) + 1, true), (8, true), (9, false), (255, false)]
            {
                changed(suite, &calls, table, good, |t| t.bytes[2] = servers)?;
            }
            for (number, good) in [(0, true), (all - 1, true), (all, false), (255, false)] {
                changed(suite, &calls, table, good, |t| t.bytes[3] = number)?;
            }
            for returns in [0, 1025, 1028, 65_535] {
                let longer = table.with(|t| t.bytes.extend(vec![0; 5_000]));
                changed(suite, &calls, &longer, false, |t| put_short(&mut t.bytes, 4, returns))?;
            }
            counts(suite, &calls, table)?;
        }
    }
    Ok(())
}

/// Decided and waiting at most N together; entered at most decided.
fn counts(suite: &mut Suite, calls: &[Call], table: &Parts) -> Verdict {
    let returns = usize::from(table.bytes[4]);
    let most = returns - table.waiting();
    for decided in [0, 1, most, most + 1, returns + 1, 256, 65_535] {
        for (entered, good) in [(0, true), (decided, true), ((decided + 1).max(256), false)] {
            changed(suite, calls, table, good && decided <= most, |t| {
                put_short(&mut t.bytes, 6, decided);
                put_short(&mut t.bytes, 8, entered);
            })?;
        }
    }
    let decided = usize::from(table.bytes[6]);
    changed(suite, calls, table, false, |t| put_short(&mut t.bytes, 8, decided + 1))
}

/// Totals at both sides of p; ids are free.
pub fn numbers(suite: &mut Suite) -> Verdict {
    let numbers = [(0, true), (1, true), (P - 1, true), (P, false), (P + 1, false), ((1 << 32) - 1, false)];
    for fixture in fixtures(suite)? {
        let calls = fixture.calls();
        for table in fixture.stages() {
            let places = read(table)?.at;
            for at in (places.totals..places.length).step_by(4) {
                for (number, element) in numbers {
                    let good = element || at >= places.ids;
                    changed(suite, &calls, table, good, |t| put_word(&mut t.bytes, at, number))?;
                }
            }
        }
    }
    Ok(())
}

/// Sheets in a table: refused ones, ones too long, and refusal 4's rule.
pub fn sheets(suite: &mut Suite) -> Verdict {
    let fixture = Fixture::new(suite, 2, 1, &[19, 20, 17], 2)?;
    let calls = fixture.calls();
    for table in fixture.stages() {
        for sheet in [[20, 20, 17], [19, 25, 17], [19, 0, 17], [17, 17, 18], [18, 1, 17], [18, 65, 17]] {
            changed(suite, &calls, table, false, |t| t.bytes[14..17].copy_from_slice(&sheet))?;
        }
        for length in [0, 1, 300, 65_535] {
            changed(suite, &calls, table, false, |t| put_short(&mut t.bytes, 12, length))?;
        }
        // Longer parts in which wider sheets and more returns find room.
        let longer = table.with(|t| {
            t.bytes.extend(vec![0; 6_000]);
            t.elements.extend(vec![0; 6_208]);
        });
        for (bits, returns, good) in
            [(24, 128, true), (24, 129, false), (23, 256, true), (23, 257, false), (21, 1024, true)]
        {
            changed(suite, &calls, &longer, good, |t| fresh(t, &[19, bits, 17], returns))?;
        }
        changed(suite, &calls, &longer, false, |t| fresh(t, &[19, 24, 17], 1025))?;
        for (top, returns, good) in [(0xFF_FFFF, 128, true), (0xFF_FFFF, 129, false), (200, 1024, true)] {
            changed(suite, &calls, &longer, good, |t| fresh(t, &top_column(top), returns))?;
        }
        for top in [0, 0x100_0000, u32::MAX] {
            changed(suite, &calls, &longer, false, |t| fresh(t, &top_column(top), 2))?;
        }
        for (bits, returns, good) in
            [(12, 128, true), (12, 129, false), (11, 512, true), (11, 513, false), (1, 1024, true), (13, 2, false)]
        {
            changed(suite, &calls, &longer, good, |t| fresh(t, &[21, bits, 17], returns))?;
        }
    }
    Ok(())
}

/// Writes a table of a sheet with N and Q = 1, in which nothing waits, over what the parts hold.
fn fresh(parts: &mut Parts, sheet: &[u8], returns: usize) {
    let slice = &mut parts.bytes;
    slice.fill(0);
    slice[..4].copy_from_slice(&[3, 0, 2, 1]);
    put_short(slice, 4, returns);
    put_short(slice, 10, 1);
    put_short(slice, 12, sheet.len());
    slice[14..14 + sheet.len()].copy_from_slice(sheet);
    parts.slots.fill(Slot::default());
    parts.elements.fill(0);
}

/// A table may have decided the id that waits; ids past those decided are not used.
pub fn ids(suite: &mut Suite) -> Verdict {
    for fixture in fixtures(suite)? {
        let at = read(&fixture.idle)?.at.ids;
        let decided = usize::from(fixture.idle.bytes[6]);
        let id = u64::from(id_of(&fixture.share));
        let mut call = fixture.share();
        put_word(&mut call.table.bytes, at + 4 * decided, id);
        suite.number(&call, 0)?;
        put_word(&mut call.table.bytes, at, id);
        suite.number(&call, 10)?;
        for call in fixture.on_next().into_iter().skip(1) {
            let table = call.table.with(|t| put_word(&mut t.bytes, at, id));
            suite.number(&Call { table, ..call }, 0)?;
        }
    }
    Ok(())
}

/// All calls at tables with random damage in any of the parts.
pub fn random(suite: &mut Suite) -> Verdict {
    for (number, fixture) in fixtures(suite)?.into_iter().enumerate() {
        let mut rng = suite.seed(700 + number as u64);
        let calls = fixture.calls();
        for _ in 0..400 {
            for table in fixture.stages() {
                let table = damaged(&mut rng, table);
                all_calls(suite, &calls, &table)?;
                // The records' own ids are named too.
                let id = rng.pick([0, 3, 7]);
                let id = table.slots.get(id).map_or(0, |slot| slot.id);
                for function in [Function::RoundOne, Function::RoundTwo, Function::Enter, Function::Drop] {
                    let (table, message) = (table.clone(), fixture.joined_one.clone());
                    suite.agrees(&Call { table, id, message, room: TWO_BYTES, ..Call::of(function) })?;
                }
            }
        }
    }
    Ok(())
}
