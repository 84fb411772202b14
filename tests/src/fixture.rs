//! Tables of one server in every stage, with the calls that they take.

use second::gen::Rng;

use crate::calls::{Call, Function};
use crate::layout::{Parts, AWAITS_ENTRY, AWAITS_ONE, CLOSED, SLOTS};
use crate::pools::Pool;
use crate::reference::{ONE_BYTES, TWO_BYTES};
use crate::suite::Suite;

/// The id that every table has decided.
pub const DECIDED: u32 = 77;
/// The id that waits, or that the next share brings.
pub const NEXT: u32 = 0x0403_0201;
/// An id that is never used.
pub const UNKNOWN: u32 = 0x0403_0200;

/// The id of the other return that waits in a record.
pub fn other(record: usize) -> u32 {
    500 + record as u32
}

/// The stage of the other return that waits in a record: each of the three in turn.
pub fn other_stage(record: usize) -> u32 {
    1 + record as u32 % 3
}

/// The table, closed. One in which others wait cannot be closed, but by hand.
fn closed(suite: &mut Suite, pool: &mut Pool, own: usize) -> Result<Parts, String> {
    if pool.tables[own].waiting() > 0 {
        return Ok(pool.tables[own].with(|table| table.bytes[1] = CLOSED));
    }
    pool.close(suite)?;
    Ok(pool.tables[own].clone())
}

/// A server's table in every stage, and the messages that it takes next.
pub struct Fixture {
    pub idle: Parts,
    /// NEXT awaits round one, round two, or entry.
    pub first: Parts,
    pub second: Parts,
    pub third: Parts,
    pub closed: Parts,
    /// As `idle`, with N returns that are decided or wait.
    pub full: Parts,
    pub share: Vec<u8>,
    pub joined_one: Vec<u8>,
    pub joined_two: Vec<u8>,
    pub closing: usize,
    pub multiplications: u64,
    pub r: u64,
    pub s: u64,
    /// The record of NEXT.
    pub record: usize,
}

impl Fixture {
    /// Server `own` of S, on this sheet, with N at least 2: no return waits but NEXT.
    pub fn new(suite: &mut Suite, servers: u32, own: usize, sheet: &[u8], returns: u32) -> Result<Fixture, String> {
        let mut rng = suite.seed(u64::from(servers) + 16 * own as u64);
        let mut pool = Pool::open(suite, servers, sheet, returns)?;
        let decided = pool.make_zeros(suite, &mut rng, DECIDED)?;
        pool.admit(suite, &decided, 1_000_003, 19)?;
        Fixture::of(suite, rng, pool, own)
    }

    /// The same with N at least 9: others wait in all records but this one, which NEXT gets, in each of the stages.
    pub fn among(
        suite: &mut Suite,
        servers: u32,
        own: usize,
        sheet: &[u8],
        returns: u32,
        record: usize,
    ) -> Result<Fixture, String> {
        let mut rng = suite.seed(u64::from(servers) + 16 * own as u64 + 128 * record as u64);
        let mut pool = Pool::open(suite, servers, sheet, returns)?;
        let mut joined = Vec::new();
        for number in 0..SLOTS {
            let id = if number == record { DECIDED } else { other(number) };
            let shares = pool.make_zeros(suite, &mut rng, id)?;
            joined.push(pool.share(suite, &shares, 1_000_003 + number as u64, 19)?);
        }
        for (number, joined) in joined.iter().enumerate() {
            let stage = if number == record { AWAITS_ENTRY } else { other_stage(number) };
            if stage > AWAITS_ONE {
                let last = pool.round_one(suite, joined)?;
                if stage == AWAITS_ENTRY {
                    pool.round_two(suite, &last)?;
                }
            }
        }
        pool.enter(suite, DECIDED)?;
        Fixture::of(suite, rng, pool, own)
    }

    /// The stages that come of a pool's tables.
    fn of(suite: &mut Suite, mut rng: Rng, mut pool: Pool, own: usize) -> Result<Fixture, String> {
        let (r, s) = (1_000_003, 19);
        let idle = pool.tables.clone();
        let shares = pool.make_zeros(suite, &mut rng, NEXT)?;
        let joined_one = pool.share(suite, &shares, r, s)?;
        let first = pool.tables[own].clone();
        let joined_two = pool.round_one(suite, &joined_one)?;
        let second = pool.tables[own].clone();
        pool.round_two(suite, &joined_two)?;
        let third = pool.tables[own].clone();
        pool.tables.clone_from(&idle);
        let closed = closed(suite, &mut pool, own)?;
        pool.tables.clone_from(&idle);
        for id in 1..pool.returns - idle[own].waiting() as u32 {
            let shares = pool.make_zeros(suite, &mut rng, 1000 + id)?;
            pool.share(suite, &shares, r, s)?;
            pool.drop(suite, 1000 + id)?;
        }
        let record = first.record(NEXT).ok_or("a share that was taken does not wait")?;
        Ok(Fixture {
            idle: idle[own].clone(),
            first,
            second,
            third,
            closed,
            full: pool.tables[own].clone(),
            share: shares[own].clone(),
            joined_one,
            joined_two,
            closing: pool.sheet.closing_length(),
            multiplications: pool.sheet.multiplications() as u64,
            r,
            s,
            record,
        })
    }

    pub fn share(&self) -> Call {
        let (table, message) = (self.idle.clone(), self.share.clone());
        Call { table, message, r: self.r, s: self.s, room: ONE_BYTES, ..Call::of(Function::Share) }
    }

    pub fn round_one(&self) -> Call {
        let (table, message) = (self.first.clone(), self.joined_one.clone());
        Call { table, id: NEXT, message, room: TWO_BYTES, ..Call::of(Function::RoundOne) }
    }

    pub fn round_two(&self) -> Call {
        let (table, message) = (self.second.clone(), self.joined_two.clone());
        Call { table, id: NEXT, message, ..Call::of(Function::RoundTwo) }
    }

    pub fn enter(&self) -> Call {
        Call { table: self.third.clone(), id: NEXT, ..Call::of(Function::Enter) }
    }

    pub fn drop(&self) -> Call {
        Call { table: self.first.clone(), id: NEXT, ..Call::of(Function::Drop) }
    }

    pub fn close(&self) -> Call {
        Call { table: self.idle.clone(), room: self.closing, ..Call::of(Function::Close) }
    }

    /// The calls on one return, each with the arguments that its own stage takes, which all are done.
    pub fn on_next(&self) -> Vec<Call> {
        vec![self.share(), self.round_one(), self.round_two(), self.enter(), self.drop()]
    }

    /// All six calls, each with the arguments that its own stage takes.
    pub fn calls(&self) -> Vec<Call> {
        let mut calls = self.on_next();
        calls.push(self.close());
        calls
    }

    /// The table in every stage.
    pub fn stages(&self) -> [&Parts; 6] {
        [&self.idle, &self.first, &self.second, &self.third, &self.closed, &self.full]
    }
}
