//! The least count Q, told by hand: opening with it, closing from it on, and where it stands in a table.

mod tables;

use crate::calls::{plain, Call, Function, Outcome};
use crate::decided::{take, End, ENDS};
use crate::layout::{put_short, Parts};
use crate::pools::Pool;
use crate::reference::ONE_BYTES;
use crate::suite::{Suite, Verdict};
pub use tables::{compared, damaged};

const SHEET: [u8; 3] = [17, 18, 2];
/// The length of its totals message.
const CLOSING: usize = 6 + 4 * 3;

fn opens(returns: u32, least: u32) -> Call {
    Call { least, ..Call::open_table(2, 1, &SHEET, returns) }
}

fn closes(table: &Parts, room: usize) -> Call {
    Call { table: table.clone(), room, ..Call::of(Function::Close) }
}

/// The outcome of joining so many returns of zeros: no yes, and the first option of the choice.
fn joined(count: u32, zeros: u32) -> Outcome {
    plain(vec![count.into()], [0, zeros, 0].map(u32::to_le_bytes).concat())
}

/// The parts with another Q.
fn with_least(table: &Parts, least: usize) -> Parts {
    table.with(|table| put_short(&mut table.bytes, 10, least))
}

/// From 1 to N it opens and stands in the table; all else is refused 2, and nothing is cut to fewer bits.
pub fn opening(suite: &mut Suite) -> Verdict {
    suite.seed(30);
    for returns in [1u32, 2, 3, 254, 255, 256, 257, 1023, 1024] {
        for least in [1, returns.div_ceil(2), (returns - 1).max(1), returns] {
            let call = opens(returns, least);
            suite.number(&call, 0)?;
            let table = suite.check(&call)?.map_or(Parts::default(), |done| done.table);
            if table.bytes[10..12] != least.to_le_bytes()[..2] {
                return Err(suite.failure(&call, &format!("{table}\nmust have Q in bytes 10 and 11")));
            }
        }
        for least in [0, returns + 1, returns + 2, 1025, 65_535, u32::MAX] {
            suite.number(&opens(returns, least), 2)?;
        }
        for more in [1 << 16, 1 << 24, 1 << 31] {
            suite.number(&opens(returns, more), 2)?;
            suite.number(&opens(returns, more + 1), 2)?;
            suite.number(&opens(returns, more + returns), 2)?;
        }
    }
    Ok(())
}

/// A refusal, S and own number, a sheet, N and Q.
type Row<'a> = (u32, [u32; 2], &'a [u8], [u32; 2]);

/// S and own number, the sheet, N, Q, 4, 14: one fault after the other goes away.
pub fn opening_order(suite: &mut Suite) -> Verdict {
    suite.seed(31);
    let number = [19, 24];
    let rows: [Row; 16] = [
        (2, [9, 0], &[20], [0, 0]),
        (2, [2, 2], &[20], [0, 0]),
        (1, [2, 1], &[20], [0, 0]),
        (1, [2, 1], &[20], [5, 0]),
        (2, [2, 1], &number, [0, 0]),
        (2, [2, 1], &number, [0, 1]),
        (2, [2, 1], &number, [1025, 1026]),
        (2, [2, 1], &number, [1025, 1025]),
        (2, [2, 1], &number, [129, 0]),
        (2, [2, 1], &number, [129, 130]),
        (4, [2, 1], &number, [129, 1]),
        (4, [2, 1], &number, [129, 129]),
        (2, [2, 1], &number, [128, 0]),
        (2, [2, 1], &number, [128, 129]),
        (14, [2, 1], &number, [128, 1]),
        (14, [2, 1], &number, [128, 128]),
    ];
    for (number, [servers, own], sheet, [returns, least]) in rows {
        let call = Call { least, ..Call::open_table(servers, own, sheet, returns) };
        let room = 14 + sheet.len() + 4 + 4 * returns as usize;
        for (room, slots, elements) in [(0, 0, 0), (room - 1, 8, 6_208), (room, 7, 6_208), (room, 8, 100)] {
            suite.number(&Call { room, slots, elements, ..call.clone() }, number)?;
        }
        suite.number(&call, if number == 14 { 0 } else { number })?;
    }
    Ok(())
}

/// 15 with fewer than Q entered; with Q and with more the tables close, and join to the count.
pub fn from(suite: &mut Suite) -> Verdict {
    for (servers, returns, least) in [(2, 1, 1), (2, 2, 1), (2, 2, 2), (3, 5, 3), (8, 4, 2), (2, 10, 10)] {
        let mut rng = suite.seed(u64::from(32 + returns));
        let mut pool = Pool::open_from(suite, servers, &SHEET, returns, least)?;
        for entered in 0..=returns {
            if entered < least {
                pool.close_refused(suite, 15)?;
            } else {
                let open = pool.tables.clone();
                let join = pool.close(suite)?;
                suite.gives(&join, joined(entered, entered))?;
                pool.tables = open;
            }
            if entered < returns {
                take(suite, &mut rng, &mut pool, entered, End::Entered)?;
            }
        }
    }
    Ok(())
}

/// All rooms for closing: these numbers.
fn rooms(suite: &mut Suite, table: &Parts, short: u32, enough: u32) -> Verdict {
    for room in [0, 1, 6, CLOSING - 1] {
        suite.number(&closes(table, room), short)?;
    }
    for room in [CLOSING, CLOSING + 1, 1000] {
        suite.number(&closes(table, room), enough)?;
    }
    Ok(())
}

/// 11, while a return waits, for a closed and for an unsound table; 15; 14.
pub fn closing_order(suite: &mut Suite) -> Verdict {
    let mut rng = suite.seed(33);
    let mut pool = Pool::open_from(suite, 2, &SHEET, 5, 2)?;
    take(suite, &mut rng, &mut pool, 1, End::Entered)?;
    rooms(suite, &pool.tables[1], 15, 15)?;
    for (at, byte) in [(0, 2), (1, 1), (1, 2), (2, 9), (3, 2), (8, 2), (10, 0), (10, 6), (11, 1)] {
        rooms(suite, &pool.tables[1].with(|table| table.bytes[at] = byte), 11, 11)?;
    }
    let shares = pool.make_zeros(suite, &mut rng, 2)?;
    let joined = pool.share(suite, &shares, 1_000_003, 19)?;
    rooms(suite, &pool.tables[1], 11, 11)?;
    let joined = pool.round_one(suite, &joined)?;
    rooms(suite, &pool.tables[1], 11, 11)?;
    pool.round_two(suite, &joined)?;
    rooms(suite, &pool.tables[1], 11, 11)?;
    pool.enter(suite, 2)?;
    rooms(suite, &pool.tables[1], 14, 0)?;
    pool.close(suite)?;
    rooms(suite, &pool.tables[1], 11, 11)
}

/// Returns that are rejected or dropped do not count.
pub fn others(suite: &mut Suite) -> Verdict {
    let mut rng = suite.seed(34);
    let mut pool = Pool::open_from(suite, 3, &SHEET, 20, 2)?;
    for (id, end) in (0..).zip(ENDS.into_iter().rev().chain(ENDS.into_iter().rev())) {
        pool.close_refused(suite, 15)?;
        take(suite, &mut rng, &mut pool, id, end)?;
    }
    let join = pool.close(suite)?;
    suite.gives(&join, joined(2, 2))
}

/// A pool with closes that are refused 15 between its calls and one without: the same parts, and the same totals.
pub fn kept(suite: &mut Suite) -> Verdict {
    let mut pools = Vec::new();
    for tries in [0, 3] {
        let mut rng = suite.seed(35);
        let mut pool = Pool::open_from(suite, 2, &SHEET, 7, 3)?;
        let mut tables = Vec::new();
        for (id, end) in (0..).zip(ENDS.into_iter().chain([End::Entered, End::Entered])) {
            for _ in 0..tries {
                pool.tables.iter().try_for_each(|table| rooms(suite, table, 15, 15))?;
            }
            take(suite, &mut rng, &mut pool, id, end)?;
            tables.push(pool.tables.clone());
        }
        pools.push((tables, pool.close(suite)?.message));
    }
    if pools[0] != pools[1] {
        return Err("a pool that was refused 15 goes on otherwise than one that was not".to_string());
    }
    Ok(())
}

/// N decided and fewer than Q entered: every share is 13 and every close 15, for ever.
pub fn never(suite: &mut Suite) -> Verdict {
    use End::{DroppedFirst, DroppedSecond, DroppedThird, Entered, Rejected};
    for (least, ends) in [
        (1, [Rejected, DroppedFirst, DroppedSecond]),
        (1, [DroppedThird, DroppedThird, DroppedThird]),
        (2, [Entered, DroppedFirst, Rejected]),
        (2, [DroppedThird, Entered, DroppedThird]),
        (3, [Entered, Rejected, Entered]),
        (3, [DroppedSecond, Entered, Entered]),
    ] {
        let mut rng = suite.seed(36);
        let mut pool = Pool::open_from(suite, 2, &SHEET, 3, least)?;
        for (id, end) in (0..).zip(ends) {
            take(suite, &mut rng, &mut pool, id, end)?;
        }
        for id in 0..6 {
            rooms(suite, &pool.tables[0], 15, 15)?;
            let (table, message) = (pool.tables[0].clone(), pool.make_zeros(suite, &mut rng, id)?[0].clone());
            let share = Call { table, message, r: 1_000_003, s: 19, room: ONE_BYTES, ..Call::of(Function::Share) };
            suite.number(&share, 13)?;
            suite.number(&Call { message: Vec::new(), ..share.clone() }, 13)?;
            for function in [Function::Enter, Function::Drop] {
                suite.number(&Call { function, id, ..share.clone() }, 11)?;
            }
        }
    }
    Ok(())
}

/// Servers opened alike have the same Q: all refuse or all close. With another Q one would close before, or later.
pub fn alike(suite: &mut Suite) -> Verdict {
    for servers in 2..=8 {
        let mut rng = suite.seed(u64::from(37 + servers));
        let mut pool = Pool::open_from(suite, servers, &SHEET, 4, 2)?;
        take(suite, &mut rng, &mut pool, 1, End::Entered)?;
        pool.close_refused(suite, 15)?;
        for table in &pool.tables {
            suite.number(&closes(&with_least(table, 1), CLOSING), 0)?;
            suite.number(&closes(&with_least(table, 3), CLOSING), 15)?;
        }
        take(suite, &mut rng, &mut pool, 2, End::Entered)?;
        for table in &pool.tables {
            suite.number(&closes(&with_least(table, 3), CLOSING), 15)?;
        }
        let join = pool.close(suite)?;
        suite.gives(&join, joined(2, 2))?;
    }
    Ok(())
}

/// Joining takes the totals of any Q, made-up ones with fewer too: N is its only limit of the count.
pub fn joining(suite: &mut Suite) -> Verdict {
    let mut rng = suite.seed(46);
    let mut pool = Pool::open_from(suite, 2, &SHEET, 5, 4)?;
    for id in 0..4 {
        take(suite, &mut rng, &mut pool, id, End::Entered)?;
    }
    let join = pool.close(suite)?;
    for (returns, number) in [(3, 12), (4, 0), (5, 0), (1024, 0)] {
        suite.number(&Call { returns, ..join.clone() }, number)?;
    }
    for (count, number) in [(0, 0), (1, 0), (3, 0), (4, 0), (5, 0), (6, 12)] {
        let mut call = join.clone();
        [2, CLOSING + 2].into_iter().for_each(|at| call.message[at] = count);
        suite.number(&call, number)?;
        if number == 0 {
            suite.gives(&call, joined(count.into(), 4))?;
        }
    }
    Ok(())
}
