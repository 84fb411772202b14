//! Verdict first, entry second, told by hand: what a verdict leaves, what an entry adds, and when it is refused.

use crate::calls::{plain, Call, Function};
use crate::decided::{take, End};
use crate::fixture::{other_stage, Fixture, NEXT};
use crate::hall::{after, id, Hall, NOBODY, OWN};
use crate::layout::{put_short, put_word, read, short, word, words, Parts, AWAITS_ENTRY, AWAITS_TWO, SLOTS};
use crate::pools::Pool;
use crate::suite::{Suite, Verdict};
use crate::tops::top_column;

const P: u64 = 2_147_483_647;
const SHEET: [u8; 3] = [17, 18, 2];

/// An accepted verdict changes the stage of a record and nothing else; a rejected one decides.
pub fn verdict(suite: &mut Suite) -> Verdict {
    let hall = Hall::of(suite, 3, &[17, 19, 3], 20, 8)?;
    for record in (0..SLOTS).filter(|&record| other_stage(record) == AWAITS_TWO) {
        let before = hall.table();
        let accepted = after(suite, &hall.next(record))?;
        if accepted != before.with(|table| table.slots[record].stage = AWAITS_ENTRY) {
            return Err(format!("{accepted} after an accepted verdict\nmust be {before} but for a stage"));
        }
        let rejected = after(suite, &hall.decide(record))?;
        let (old, new) = (read(&before)?, read(&rejected)?);
        let counts = (new.decided, new.entered) == (old.decided + 1, old.entered);
        if !counts || rejected.record(id(record)).is_some() || totals(&rejected)? != totals(&before)? {
            return Err(format!("{rejected} after a rejected verdict on {before}"));
        }
        suite.number(&Call { table: rejected, ..hall.enter(id(record)) }, 11)?;
    }
    Ok(())
}

/// The bytes of a table's totals.
fn totals(parts: &Parts) -> Result<Vec<u8>, String> {
    let at = read(parts)?.at;
    Ok(parts.bytes[at.totals..at.ids].to_vec())
}

/// The totals that a table must have after an entry: each published entry of the share added, modulo p.
fn added(before: &Parts, share: &[u8]) -> Result<Vec<u8>, String> {
    let table = read(before)?;
    let old = words(&before.bytes, table.at.totals, table.sheet.published());
    let sums =
        old.iter().zip(table.sheet.published_entries()).map(|(total, entry)| (total + word(share, 6 + 4 * entry)) % P);
    Ok(sums.flat_map(|sum| (sum as u32).to_le_bytes()).collect())
}

/// An entry adds the share's published entries, once: the id is then decided and counted, and a second entry is 11.
pub fn once(suite: &mut Suite) -> Verdict {
    let sheets = [vec![17], vec![18, 3, 19, 4, 17], vec![19, 24], [top_column(200), vec![17]].concat(), vec![17; 40]];
    for (servers, sheet) in (2..).zip(sheets) {
        let hall = Hall::of(suite, servers, &sheet, 20, 8)?;
        for record in (0..SLOTS).filter(|&record| other_stage(record) == AWAITS_ENTRY) {
            let (call, before) = (hall.next(record), hall.table());
            let table = after(suite, &call)?;
            let (old, new) = (read(&before)?, read(&table)?);
            let last = word(&table.bytes, new.at.ids + 4 * old.decided);
            let counts = (new.decided, new.entered) == (old.decided + 1, old.entered + 1);
            if totals(&table)? != added(&before, &hall.shares[record][OWN])? || !counts || last != id(record).into() {
                return Err(suite.failure(&call, &format!("{table}\nmust have the share added once")));
            }
            suite.number(&Call { table: table.clone(), ..call.clone() }, 11)?;
            suite.number(&Call { table, ..hall.drop(id(record)) }, 11)?;
        }
    }
    Ok(())
}

/// Totals at both ends of the field and every carry of both counts.
pub fn sums(suite: &mut Suite) -> Verdict {
    let fixture = Fixture::new(suite, 2, 1, &[17, 18, 3, 19, 5], 1024)?;
    let at = read(&fixture.third)?.at;
    for total in [0, 1, P / 2, P / 2 + 1, P - 2, P - 1] {
        let table =
            fixture.third.with(|t| (at.totals..at.ids).step_by(4).for_each(|k| put_word(&mut t.bytes, k, total)));
        let must = added(&table, &fixture.share)?;
        let call = Call { table, ..fixture.enter() };
        if totals(&after(suite, &call)?)? != must {
            return Err(suite.failure(&call, &format!("with totals other than {must:?}")));
        }
    }
    for (decided, entered) in [(255, 0), (255, 255), (256, 255), (511, 511), (767, 256), (1023, 1023), (1023, 0)] {
        let table = fixture.third.with(|t| {
            put_short(&mut t.bytes, 6, decided);
            put_short(&mut t.bytes, 8, entered);
        });
        let call = Call { table, ..fixture.enter() };
        let table = after(suite, &call)?;
        if (short(&table.bytes, 6), short(&table.bytes, 8)) != (decided + 1, entered + 1) {
            return Err(suite.failure(&call, &format!("{table}\nmust have both counts raised")));
        }
    }
    Ok(())
}

/// An id without an accepted verdict is 11, whatever became of it.
pub fn otherwise(suite: &mut Suite) -> Verdict {
    let mut rng = suite.seed(70);
    let mut pool = Pool::open(suite, 3, &SHEET, 20)?;
    let ends = [End::Entered, End::Rejected, End::DroppedFirst, End::DroppedSecond, End::DroppedThird];
    for (id, end) in (1..).zip(ends) {
        take(suite, &mut rng, &mut pool, id, end)?;
    }
    for (table, id) in pool.tables.iter().flat_map(|table| (0..9).chain([NEXT, u32::MAX]).map(move |id| (table, id))) {
        suite.number(&Call { table: table.clone(), id, ..Call::of(Function::Enter) }, 11)?;
    }
    let fixture = Fixture::new(suite, 2, 0, &SHEET, 4)?;
    for table in [&fixture.idle, &fixture.first, &fixture.second, &fixture.closed, &fixture.full] {
        suite.number(&Call { table: table.clone(), ..fixture.enter() }, 11)?;
    }
    // A closed table in which one awaits entry comes from no call, and takes none.
    suite.number(&Call { table: fixture.third.with(|t| t.bytes[1] = 1), ..fixture.enter() }, 11)?;
    suite.number(&fixture.enter(), 0)
}

/// While a return awaits entry: its id is 10 in a share, rounds of it are 11, a close is 11, and a drop is done.
pub fn meanwhile(suite: &mut Suite) -> Verdict {
    for fixture in [Fixture::new(suite, 3, 1, &SHEET, 4)?, Fixture::among(suite, 3, 1, &SHEET, 12, 4)?] {
        let third = &fixture.third;
        let number = if third.waiting() == SLOTS { 11 } else { 10 };
        suite.number(&Call { table: third.clone(), ..fixture.share() }, number)?;
        for call in [fixture.round_one(), fixture.round_two(), fixture.close()] {
            suite.number(&Call { table: third.clone(), ..call.clone() }, 11)?;
            suite.number(&Call { table: third.clone(), message: Vec::new(), room: 0, ..call }, 11)?;
        }
        let drop = Call { table: third.clone(), ..fixture.drop() };
        let dropped = after(suite, &drop)?;
        if totals(&dropped)? != totals(third)? || read(&dropped)?.entered != read(third)?.entered {
            return Err(suite.failure(&drop, &format!("{dropped}\nmust have nothing added")));
        }
        suite.number(&Call { table: dropped.clone(), ..fixture.enter() }, 11)?;
        suite.number(&Call { table: dropped, ..fixture.share() }, 10)?;
    }
    Ok(())
}

/// A return that awaits entry is one of the eight, and counts for 13: before and after it is decided.
pub fn counted(suite: &mut Suite) -> Verdict {
    for returns in [8, 9, 20] {
        let mut hall = Hall::of(suite, 2, &[17], returns, 8)?;
        for record in (0..SLOTS).filter(|&record| other_stage(record) == AWAITS_TWO) {
            hall.accept(suite, record)?;
            let call = hall.share(suite, NOBODY)?;
            suite.number(&call, 11)?;
            for table in [after(suite, &hall.enter(id(record)))?, after(suite, &hall.drop(id(record)))?] {
                suite.number(&Call { table, ..call.clone() }, if returns == 8 { 13 } else { 0 })?;
            }
        }
    }
    for returns in 1..=7 {
        let mut hall = Hall::of(suite, 2, &[17], returns, returns as usize)?;
        for record in (0..returns as usize).filter(|&record| other_stage(record) == AWAITS_TWO) {
            hall.accept(suite, record)?;
            let call = hall.share(suite, NOBODY)?;
            suite.number(&call, 13)?;
            hall.pool.enter(suite, id(record))?;
            suite.number(&Call { table: hall.table(), ..call }, 13)?;
        }
    }
    Ok(())
}

/// Q is of entered returns: of three that are accepted so many are entered and the others dropped.
pub fn least(suite: &mut Suite) -> Verdict {
    for (least, entered) in (1..=3).flat_map(|least| (0..=3).map(move |entered| (least, entered))) {
        let mut rng = suite.seed(71);
        let mut pool = Pool::open_from(suite, 2, &SHEET, 4, least)?;
        for id in 0..3 {
            let shares = pool.make_zeros(suite, &mut rng, id)?;
            pool.judge(suite, &shares, 1_000_003, 19)?;
        }
        for id in 0..3 {
            pool.close_refused(suite, 11)?;
            match id < entered {
                true => pool.enter(suite, id)?,
                false => pool.drop(suite, id)?,
            }
        }
        if entered < least {
            pool.close_refused(suite, 15)?;
            continue;
        }
        let join = pool.close(suite)?;
        suite.gives(&join, plain(vec![entered.into()], [0, entered, 0].map(u32::to_le_bytes).concat()))?;
    }
    Ok(())
}
