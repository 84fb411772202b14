//! Honest returns in pools that the library plays alone.

use second::gen::{self, Rng};
use second::{Column, Sheet};

use super::Pool;
use crate::calls::{plain, Call, Function};
use crate::challenges;
use crate::layout::{put_word, word};
use crate::lines;
use crate::orders::shuffled;
use crate::reference::ONE_BYTES;
use crate::suite::{Suite, Verdict};
use crate::tops::{largest_sheet, longest_sheet};

/// Adds the published entries of values to totals.
fn add_values(sheet: &Sheet, values: &[u8], totals: &mut [u64]) {
    let mut at = 0;
    for (k, column) in sheet.columns().iter().enumerate() {
        let value = word(values, 4 * k);
        match column {
            Column::Choice(_) => totals[at + value as usize] += 1,
            Column::Point(bits) => {
                let (x, y) = (value % (1 << bits), value >> bits);
                totals[at..].iter_mut().zip([x, x * x, y, x * y]).for_each(|(total, term)| *total += term);
            }
            _ => totals[at] += value,
        }
        at += column.published();
    }
}

/// What each server has still to enter, and what is in the totals by then.
struct Entries {
    left: Vec<Vec<u32>>,
    entered: u64,
    totals: Vec<u64>,
}

impl Entries {
    fn new(pool: &Pool) -> Entries {
        let left = vec![Vec::new(); pool.tables.len()];
        Entries { left, entered: 0, totals: vec![0; pool.sheet.published()] }
    }

    /// A return is accepted: now and then it is dropped, else entered.
    fn note(&mut self, suite: &mut Suite, rng: &mut Rng, pool: &mut Pool, id: u32, values: &[u8]) -> Verdict {
        if rng.chance(10) {
            return pool.drop(suite, id);
        }
        self.left.iter_mut().for_each(|left| left.push(id));
        add_values(&pool.sheet, values, &mut self.totals);
        self.entered += 1;
        Ok(())
    }

    /// Every server enters some of what is left, or all, in any order.
    fn enter(&mut self, suite: &mut Suite, rng: &mut Rng, pool: &mut Pool, all: bool) -> Verdict {
        for (server, left) in self.left.iter_mut().enumerate() {
            rng.shuffle(left);
            let kept = if all { 0 } else { rng.index(left.len() + 1) };
            for id in left.split_off(kept) {
                pool.enter_at(suite, server, id)?;
            }
        }
        Ok(())
    }

    /// A close is refused 11 where something is left, and 15 where fewer than Q are entered.
    fn close_refused(&self, suite: &mut Suite, pool: &Pool) -> Verdict {
        for (left, table) in self.left.iter().zip(&pool.tables) {
            let number = match left.len() as u64 {
                0 if self.entered < u64::from(pool.least) => 15,
                0 => continue,
                _ => 11,
            };
            let (table, room) = (table.clone(), pool.sheet.closing_length());
            suite.number(&Call { table, room, ..Call::of(Function::Close) }, number)?;
        }
        Ok(())
    }
}

/// Honest returns of random values, their messages in random orders. Now and then one is dropped, or has challenges that
/// differ among the servers; all others are accepted and entered, at each server in an order of its own, some of them only
/// at the end. Until Q are entered every close is refused 15; then the joined totals are their sums.
fn honest(suite: &mut Suite, rng: &mut Rng, pool: &mut Pool, count: u32) -> Verdict {
    let mut entries = Entries::new(pool);
    for id in 0..count {
        entries.close_refused(suite, pool)?;
        let values = gen::values(rng, &pool.sheet);
        let shares = pool.make_any(suite, rng, id, &values)?;
        let (r, s) = gen::pair(rng, pool.sheet.multiplications());
        if rng.chance(10) {
            pool.share(suite, &shares, r, s)?;
            pool.drop(suite, id)?;
            continue;
        }
        if rng.chance(10) {
            challenges::random_slip(suite, rng, pool, &shares, (r, s))?;
            continue;
        }
        let joined = pool.share(suite, &shares, r, s)?;
        let joined = pool.round_one(suite, &shuffled(rng, &joined))?;
        let verdicts = pool.round_two(suite, &shuffled(rng, &joined))?;
        if verdicts.iter().any(|&verdict| verdict != 1) {
            return Err(format!("an honest return has the verdicts {verdicts:?}, r = {r}, s = {s}, id {id}"));
        }
        entries.note(suite, rng, pool, id, &values)?;
        entries.enter(suite, rng, pool, false)?;
    }
    entries.close_refused(suite, pool)?;
    entries.enter(suite, rng, pool, true)?;
    if entries.entered < u64::from(pool.least) {
        return pool.close_refused(suite, 15);
    }
    let join = pool.close(suite)?;
    let bytes = entries.totals.iter().flat_map(|&total| (total as u32).to_le_bytes()).collect();
    suite.gives(&join, plain(vec![entries.entered], bytes))?;
    lines::of_columns(suite, &join, entries.entered, &entries.totals)
}

/// A pool by its seed: sheets of all sizes, 2 to 8 servers, Q often as many as come.
pub fn pool(suite: &mut Suite, seed: u64) -> Verdict {
    let mut rng = suite.seed(seed);
    let entries = rng.pick([1, 6, 20, 60, 256]);
    let bytes = gen::sheet(&mut rng, entries);
    let servers = rng.between(2, 8) as u32;
    let largest = Sheet::read(&bytes).map_or(1, |sheet| gen::largest_limit(&sheet));
    let count = rng.between(1, 6).min(u64::from(largest)) as u32;
    let returns = rng.pick([count, largest]);
    let any = rng.between(1, count.into()) as u32;
    let least = rng.pick([1, any, count, (count + 1).min(returns)]);
    let mut pool = Pool::open_from(suite, servers, &bytes, returns, least)?;
    honest(suite, &mut rng, &mut pool, count)
}

/// The largest sheets of each kind, at 2 and at 8 servers.
pub fn large(suite: &mut Suite) -> Verdict {
    let mut number = [19, 24].repeat(10);
    number.extend([19, 5]);
    let others = [vec![17; 256], [18, 64].repeat(4), [18, 2].repeat(128), [19, 1].repeat(128), number];
    let points = [[21, 12].repeat(9), [21, 1].repeat(42)];
    for bytes in others.into_iter().chain([longest_sheet(), largest_sheet()]).chain(points) {
        for servers in [2, 8] {
            let mut rng = suite.seed(u64::from(servers));
            let mut pool = Pool::open(suite, servers, &bytes, 3)?;
            honest(suite, &mut rng, &mut pool, 2)?;
        }
    }
    Ok(())
}

/// N = 1,024 returns are decided, the last eight of them mixed, none twice, and not one more.
pub fn many(suite: &mut Suite) -> Verdict {
    let mut rng = suite.seed(1024);
    let mut pool = Pool::open(suite, 2, &[17], 1024)?;
    let last = pool.make(suite, &mut rng, 1024, &[1, 0, 0, 0])?[0].clone();
    let mut waiting = Vec::new();
    for id in 0..1024 {
        let shares = pool.make(suite, &mut rng, id, &[1, 0, 0, 0])?;
        if id == 1023 {
            used(suite, &pool, &shares[0])?;
        }
        if id >= 1016 {
            waiting.push(pool.share(suite, &shares, 5, 6)?);
        } else if pool.admit(suite, &shares, 5, 6)? != [1, 1] {
            return Err(format!("the honest return {id} is not accepted"));
        }
    }
    // A ninth: 11 while eight wait, also for entry, 13 from then on.
    let one_more = |pool: &Pool| {
        let (table, message) = (pool.tables[0].clone(), last.clone());
        Call { table, message, r: 5, s: 6, room: ONE_BYTES, ..Call::of(Function::Share) }
    };
    suite.number(&one_more(&pool), 11)?;
    for joined in waiting.iter().rev() {
        let joined = pool.round_one(suite, joined)?;
        if pool.round_two(suite, &joined)? != [1, 1] {
            return Err("an honest return that waited with others is not accepted".to_string());
        }
        suite.number(&one_more(&pool), 11)?;
    }
    for id in 1016..1024 {
        pool.enter(suite, id)?;
        suite.number(&one_more(&pool), 13)?;
    }
    let join = pool.close(suite)?;
    suite.gives(&join, plain(vec![1024], vec![0, 4, 0, 0]))
}

/// With 1,023 returns decided or waiting, the first, the last and those between are used.
fn used(suite: &mut Suite, pool: &Pool, share: &[u8]) -> Verdict {
    let ids =
        [(0, 10), (1, 10), (254, 10), (255, 10), (256, 10), (257, 10), (511, 10), (512, 10), (1022, 10), (1023, 0)];
    for (id, number) in ids.into_iter().chain([(1 << 16, 0), (1 << 24, 0), ((1 << 32) - 1, 0)]) {
        let (table, mut message) = (pool.tables[0].clone(), share.to_vec());
        put_word(&mut message, 1, id);
        suite.number(&Call { table, message, r: 5, s: 6, room: ONE_BYTES, ..Call::of(Function::Share) }, number)?;
    }
    Ok(())
}

/// The largest totals that open: 128 times 2^24 - 1 does not wrap, for a number and for a top; nor does 128 times 4,095^2.
pub fn highest(suite: &mut Suite) -> Verdict {
    let one = vec![2_147_483_520];
    let four = [524_160, 2_146_435_200].repeat(2);
    for (sheet, totals) in [(&[19, 24][..], &one), (&[20, 255, 255, 255, 0], &one), (&[21, 12], &four)] {
        let mut rng = suite.seed(128);
        let mut pool = Pool::open(suite, 2, sheet, 128)?;
        for id in 0..128 {
            let shares = pool.make(suite, &mut rng, id, &[255, 255, 255, 0])?;
            pool.admit(suite, &shares, 1_000_000 + u64::from(id), 77)?;
        }
        let join = pool.close(suite)?;
        let bytes = totals.iter().flat_map(|&total: &u64| (total as u32).to_le_bytes()).collect();
        suite.gives(&join, plain(vec![128], bytes))?;
        lines::of_columns(suite, &join, 128, totals)?;
    }
    Ok(())
}
