//! Servers that stop between verdict and entry and go on later from the tables that they kept; and what comes of an id
//! that is dropped at one server and entered at another.

use second::gen::{self, Rng};

use crate::calls::{plain, Call};
use crate::layout::{read, Parts, AWAITS_ENTRY, SLOTS};
use crate::pools::Pool;
use crate::suite::{Suite, Verdict};

/// A yes/no and a number of 8 bits: the totals are the sums of the values.
const SHEET: [u8; 3] = [17, 19, 8];

/// A pool in which returns of these ids are accepted everywhere; gives the values of each.
fn accepted(suite: &mut Suite, rng: &mut Rng, pool: &mut Pool, ids: &[u32]) -> Result<Vec<[u32; 2]>, String> {
    let mut all = Vec::new();
    for &id in ids {
        let values = [rng.below(2), rng.below(256)].map(|value| value as u32);
        let shares = pool.make(suite, rng, id, &values.map(u32::to_le_bytes).concat())?;
        let (r, s) = gen::pair(rng, pool.sheet.multiplications());
        if pool.judge(suite, &shares, r, s)?.contains(&0) {
            return Err(format!("the honest return {id} is not accepted"));
        }
        all.push(values);
    }
    Ok(all)
}

/// The joining of closing messages gives the number and the sums of these values.
fn joins(suite: &mut Suite, join: &Call, values: &[[u32; 2]]) -> Verdict {
    let sums = [0, 1].map(|k| values.iter().map(|value| value[k]).sum::<u32>());
    suite.gives(join, plain(vec![values.len() as u64], sums.map(u32::to_le_bytes).concat()))
}

/// The ids that await entry in a table, as a server that starts again finds them.
fn found(parts: &Parts) -> Vec<u32> {
    parts.slots.iter().filter(|slot| slot.stage == AWAITS_ENTRY).map(|slot| slot.id).collect()
}

/// One server stops after the verdicts. The others enter and close; it goes on when they have, and finds in its table what
/// it has still to enter.
pub fn closed(suite: &mut Suite) -> Verdict {
    for (servers, stopped) in (2..=8).flat_map(|servers| (0..servers).map(move |stopped| (servers, stopped))) {
        let mut rng = suite.seed(8 * servers as u64 + stopped as u64);
        let mut pool = Pool::open_from(suite, servers as u32, &SHEET, 9, 3)?;
        let values = accepted(suite, &mut rng, &mut pool, &[4, 8, 2, 6])?;
        let mut closings = vec![Vec::new(); servers];
        for server in (0..servers).filter(|&server| server != stopped) {
            for id in [2, 4, 8] {
                pool.enter_at(suite, server, id)?;
            }
            pool.drop_at(suite, server, 6)?;
            closings[server] = pool.close_at(suite, server)?;
        }
        let table = read(&pool.tables[stopped])?;
        if (table.decided, table.entered) != (0, 0) || found(&pool.tables[stopped]) != [4, 8, 2, 6] {
            return Err(format!("a server that stopped kept {}", pool.tables[stopped]));
        }
        pool.drop_at(suite, stopped, 6)?;
        for id in found(&pool.tables[stopped]) {
            pool.enter_at(suite, stopped, id)?;
        }
        closings[stopped] = pool.close_at(suite, stopped)?;
        joins(suite, &pool.joining(closings.concat()), &values[..3])?;
    }
    Ok(())
}

/// Every server stops now and then, takes returns to their verdicts meanwhile, and enters in an order of its own: with
/// seven and fewer that await entry at any time.
pub fn between(suite: &mut Suite) -> Verdict {
    for seed in 0..12 {
        let mut rng = suite.seed(seed);
        let servers = rng.between(2, 8) as usize;
        let mut pool = Pool::open(suite, servers as u32, &SHEET, 16)?;
        let (mut values, dropped) = (Vec::new(), rng.below(16) as u32);
        for id in 0..16 {
            let more = accepted(suite, &mut rng, &mut pool, &[id])?;
            values.extend(more.into_iter().filter(|_| id != dropped));
            for server in 0..servers {
                let most = if id == 15 { 0 } else { rng.index(SLOTS) };
                end(suite, &mut rng, &mut pool, server, dropped, most)?;
            }
        }
        let join = pool.close(suite)?;
        joins(suite, &join, &values)?;
    }
    Ok(())
}

/// A server enters, or drops where it is the id to be dropped, until at most so many await entry.
fn end(suite: &mut Suite, rng: &mut Rng, pool: &mut Pool, server: usize, dropped: u32, most: usize) -> Verdict {
    let mut left = found(&pool.tables[server]);
    rng.shuffle(&mut left);
    for id in left.into_iter().skip(most) {
        match id == dropped {
            true => pool.drop_at(suite, server, id)?,
            false => pool.enter_at(suite, server, id)?,
        }
    }
    Ok(())
}

/// An id dropped at one server and entered at the others: the counts are unequal, and joining is 12. Where another is
/// entered there in its place, the counts are the same and the sums are of no returns.
pub fn apart(suite: &mut Suite) -> Verdict {
    let mut rng = suite.seed(72);
    let mut pool = Pool::open(suite, 2, &SHEET, 9)?;
    let values = accepted(suite, &mut rng, &mut pool, &[1, 2, 3])?;
    pool.enter(suite, 1)?;
    pool.enter_at(suite, 0, 2)?;
    pool.drop_at(suite, 1, 2)?;
    let before = pool.tables.clone();
    pool.enter(suite, 3)?;
    let join = pool.close(suite)?;
    suite.number(&join, 12)?;
    pool.tables = before;
    pool.drop_at(suite, 0, 3)?;
    pool.enter_at(suite, 1, 3)?;
    let join = pool.close(suite)?;
    suite.number(&join, 0)?;
    let sums = |one: usize, two: usize| [0, 1].map(|k| (values[one][k] + values[two][k]).to_le_bytes()).concat();
    match suite.check(&join)? {
        Ok(done) if done.bytes != sums(0, 1) && done.bytes != sums(0, 2) => Ok(()),
        outcome => Err(suite.failure(&join, &format!("{outcome:?}, as if an id were entered everywhere"))),
    }
}
