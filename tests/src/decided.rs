//! What a decided return leaves in the tables: its id and, where it was entered, what it added to the totals.

use std::collections::HashSet;

use second::field;
use second::gen::{self, Rng};

use crate::layout::{id_of, put_word, read, word, Parts, FREE, SLOTS};
use crate::pools::Pool;
use crate::suite::{Suite, Verdict};

/// How a return ends.
#[derive(Clone, Copy, Debug, PartialEq, Eq)]
pub enum End {
    Entered,
    Rejected,
    /// Dropped in the first wait, in the second, or after an accepted verdict.
    DroppedFirst,
    DroppedSecond,
    DroppedThird,
}

pub const ENDS: [End; 5] = [End::Entered, End::Rejected, End::DroppedFirst, End::DroppedSecond, End::DroppedThird];

/// What is added to the first entry of a return that is to be rejected.
const FALSE: u64 = 7;

/// A return's shares, one for each server.
type Shares = Vec<Vec<u8>>;

/// The shares of a return that is to end so.
fn made(suite: &mut Suite, rng: &mut Rng, pool: &Pool, id: u32, values: &[u8], end: End) -> Result<Shares, String> {
    let mut shares = pool.make(suite, rng, id, values)?;
    if end == End::Rejected {
        let entry = field::add(word(&shares[0], 6), FALSE);
        put_word(&mut shares[0], 6, entry);
    }
    Ok(shares)
}

/// Takes a return to its end; looks at the tables whenever it waits.
fn play(suite: &mut Suite, pool: &mut Pool, shares: &[Vec<u8>], end: End, look: impl Fn(&Pool) -> Verdict) -> Verdict {
    let joined = pool.share(suite, shares, 1_000_003, 19)?;
    let id = id_of(&joined);
    look(pool)?;
    if end == End::DroppedFirst {
        return pool.drop(suite, id);
    }
    let joined = pool.round_one(suite, &joined)?;
    look(pool)?;
    if end == End::DroppedSecond {
        return pool.drop(suite, id);
    }
    let verdicts = pool.round_two(suite, &joined)?;
    if verdicts.iter().any(|&verdict| verdict != u64::from(end != End::Rejected)) {
        return Err(format!("{end:?}: the verdicts are {verdicts:?}"));
    }
    if end == End::Rejected {
        return Ok(());
    }
    look(pool)?;
    match end {
        End::Entered => pool.enter(suite, id),
        _ => pool.drop(suite, id),
    }
}

/// Takes a return of zeros to its end.
pub fn take(suite: &mut Suite, rng: &mut Rng, pool: &mut Pool, id: u32, end: End) -> Verdict {
    let shares = made(suite, rng, pool, id, &vec![0; 4 * pool.sheet.columns().len()], end)?;
    play(suite, pool, &shares, end, |_| Ok(()))
}

/// Every eight bytes that stand one after another in a part of a table, numbers lowest byte first.
fn eights(table: &Parts) -> HashSet<[u8; 8]> {
    let slots = table.slots.iter().flat_map(|slot| {
        let numbers = [slot.r, slot.s, slot.d, slot.e].map(u64::to_le_bytes);
        [[slot.id, slot.stage].map(u32::to_le_bytes).as_flattened(), numbers.as_flattened()].concat()
    });
    let elements = table.elements.iter().flat_map(|number| number.to_le_bytes());
    let parts = [table.bytes.clone(), slots.collect(), elements.collect()];
    parts.iter().flat_map(|part| part.array_windows().copied().collect::<Vec<_>>()).collect()
}

/// Every run of eight bytes of the shares' elements, none of them 0, stands in its server's table, or none does. Runs that
/// the table had before the return came, of others that wait, do not count.
fn runs(pool: &Pool, before: &[Parts], shares: &[Vec<u8>], stand: bool) -> Verdict {
    for (server, (table, share)) in pool.tables.iter().zip(shares).enumerate() {
        let (eights, others) = (eights(table), eights(&before[server]));
        for run in share[6..].windows(8).filter(|run| !run.contains(&0)) {
            if eights.contains(run) != stand && !others.contains(run) {
                let told = if stand { "are not" } else { "stay" };
                return Err(format!("the bytes {run:?} of a share {told} in the table {table}"));
            }
        }
    }
    Ok(())
}

/// Nothing but zeros stands where further ids go, in free records and in their places.
fn clean(pool: &Pool) -> Verdict {
    for parts in &pool.tables {
        let table = read(parts)?;
        let room = &parts.bytes[table.at.ids + 4 * table.decided..table.at.length];
        let mut free = (0..SLOTS).filter(|&record| parts.slots[record].stage == FREE);
        if room.iter().any(|&byte| byte != 0) || !free.all(|record| table.empty(parts, record)) {
            return Err(format!("something of a decided return stays in the table {parts}"));
        }
    }
    Ok(())
}

/// So many returns wait beside the one that is looked at, in each of the three waits.
fn company(suite: &mut Suite, rng: &mut Rng, pool: &mut Pool, count: u32) -> Verdict {
    for id in 100..100 + count {
        let values = gen::values(rng, &pool.sheet);
        let shares = pool.make(suite, rng, id, &values)?;
        let joined = pool.share(suite, &shares, 1_000_003, 19)?;
        if id % 3 > 0 {
            let joined = pool.round_one(suite, &joined)?;
            if id % 3 == 2 {
                pool.round_two(suite, &joined)?;
            }
        }
    }
    Ok(())
}

/// No part of a share stays, however the return ends, nor when the table is closed. A return was entered before, so that
/// no total is a part of this share. Others wait beside it: none, some, seven; those are dropped before the close.
pub fn bytes(suite: &mut Suite) -> Verdict {
    let sheets = [(2, vec![17]), (3, vec![18, 3, 19, 4, 17]), (8, vec![19, 24]), (2, vec![18, 64, 18, 64])];
    for ((servers, sheet), others) in sheets.into_iter().chain([(3, vec![20, 200, 0, 0, 0, 17])]).zip([0, 7, 3, 7, 1]) {
        let mut rng = suite.seed(u64::from(servers));
        let mut pool = Pool::open(suite, servers, &sheet, 3 + others)?;
        let values = gen::values(&mut rng, &pool.sheet);
        let shares = pool.make(suite, &mut rng, 1, &values)?;
        play(suite, &mut pool, &shares, End::Entered, |_| Ok(()))?;
        company(suite, &mut rng, &mut pool, others)?;
        let tables = pool.tables.clone();
        for end in ENDS {
            pool.tables.clone_from(&tables);
            let shares = made(suite, &mut rng, &pool, 2, &values, end)?;
            play(suite, &mut pool, &shares, end, |pool| runs(pool, &tables, &shares, true))?;
            runs(&pool, &tables, &shares, false)?;
            clean(&pool)?;
            (100..100 + others).try_for_each(|id| pool.drop(suite, id))?;
            pool.close(suite)?;
            runs(&pool, &tables, &shares, false)?;
        }
    }
    Ok(())
}

/// The tables added up where the first share stands: the elements at these places of the share are these.
fn added(pool: &Pool, places: impl Iterator<Item = usize>, expected: &[u64]) -> Verdict {
    let mut sums = vec![0; pool.sheet.share_elements()];
    for table in &pool.tables {
        for (sum, &element) in sums.iter_mut().zip(read(table)?.place(table, 0)) {
            *sum = field::add(*sum, element.into());
        }
    }
    let shown: Vec<u64> = places.map(|place| sums[place]).collect();
    if shown != expected {
        return Err(format!("tables such as {} added up show {shown:?}\nmust be {expected:?}", pool.tables[0]));
    }
    Ok(())
}

/// All tables added up show a return while it waits. They show zeros when it is decided, and when they are closed.
/// Another is entered before, so that the pool closes.
pub fn sums(suite: &mut Suite) -> Verdict {
    let values = [[1, 0, 0, 0], [2, 0, 0, 0], [9, 0, 0, 0]].concat();
    for (servers, end) in [2, 5].into_iter().flat_map(|servers| ENDS.map(|end| (servers, end))) {
        let mut rng = suite.seed(u64::from(servers));
        let mut pool = Pool::open(suite, servers, &[17, 18, 3, 19, 4], 2)?;
        take(suite, &mut rng, &mut pool, 1, End::Entered)?;
        let shares = made(suite, &mut rng, &pool, 2, &values, end)?;
        let first = if end == End::Rejected { 1 + FALSE } else { 1 };
        play(suite, &mut pool, &shares, end, |pool| added(pool, pool.sheet.published_entries(), &[first, 0, 0, 1, 9]))?;
        let all = pool.sheet.share_elements();
        added(&pool, 0..all, &vec![0; all])?;
        pool.close(suite)?;
        added(&pool, 0..all, &vec![0; all])?;
    }
    Ok(())
}
