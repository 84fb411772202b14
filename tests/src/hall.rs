//! A pool in which up to eight returns wait in all stages, and the calls on them at one server.

use second::gen::Rng;

use crate::calls::{Call, Function};
use crate::fixture::other_stage;
use crate::layout::{Parts, AWAITS_ENTRY, AWAITS_ONE, AWAITS_TWO};
use crate::orders::altered;
use crate::pools::Pool;
use crate::reference::{ONE_BYTES, TWO_BYTES};
use crate::suite::Suite;

/// The table that is looked at.
pub const OWN: usize = 1;
pub const R: u64 = 1_000_003;

/// The id of the return in a record, and one that nobody has.
pub fn id(record: usize) -> u32 {
    0x0100_0000 * record as u32 + 900
}
pub const NOBODY: u32 = 901;

/// Returns wait in the first records: by their number they await round one, round two, entry, and so on.
pub struct Hall {
    pub rng: Rng,
    pub pool: Pool,
    pub shares: Vec<Vec<Vec<u8>>>,
    pub joined_one: Vec<Vec<u8>>,
    pub joined_two: Vec<Vec<u8>>,
}

impl Hall {
    pub fn of(suite: &mut Suite, servers: u32, sheet: &[u8], returns: u32, count: usize) -> Result<Hall, String> {
        let rng = suite.seed(u64::from(servers) + 16 * count as u64);
        let pool = Pool::open(suite, servers, sheet, returns)?;
        let mut hall = Hall { rng, pool, shares: Vec::new(), joined_one: Vec::new(), joined_two: Vec::new() };
        for record in 0..count {
            let shares = hall.pool.make_zeros(suite, &mut hall.rng, id(record))?;
            hall.joined_one.push(hall.pool.share(suite, &shares, R + record as u64, 19)?);
            hall.shares.push(shares);
        }
        for record in 0..count {
            let before = hall.pool.tables.clone();
            hall.joined_two.push(hall.pool.round_one(suite, &hall.joined_one[record])?);
            match other_stage(record) {
                AWAITS_ONE => hall.pool.tables = before,
                AWAITS_TWO => {}
                _ => hall.accept(suite, record)?,
            }
        }
        Ok(hall)
    }

    /// Every server takes round two of the return in a record, which is honest.
    pub fn accept(&mut self, suite: &mut Suite, record: usize) -> Result<(), String> {
        let verdicts = self.pool.round_two(suite, &self.joined_two[record])?;
        match verdicts.iter().all(|&verdict| verdict == 1) {
            true => Ok(()),
            false => Err(format!("an honest return has the verdicts {verdicts:?}")),
        }
    }

    pub fn table(&self) -> Parts {
        self.pool.tables[OWN].clone()
    }

    /// A share of a new return.
    pub fn share(&mut self, suite: &mut Suite, id: u32) -> Result<Call, String> {
        let shares = self.pool.make_zeros(suite, &mut self.rng, id)?;
        let (table, message) = (self.table(), shares[OWN].clone());
        Ok(Call { table, message, r: R, s: 3, room: ONE_BYTES, ..Call::of(Function::Share) })
    }

    /// A round under an id with the messages of a record.
    pub fn round(&self, function: Function, id: u32, record: usize) -> Call {
        let joined = if function == Function::RoundOne { &self.joined_one } else { &self.joined_two };
        Call { table: self.table(), id, message: joined[record].clone(), room: TWO_BYTES, ..Call::of(function) }
    }

    pub fn enter(&self, id: u32) -> Call {
        Call { table: self.table(), id, ..Call::of(Function::Enter) }
    }

    pub fn drop(&self, id: u32) -> Call {
        Call { table: self.table(), id, ..Call::of(Function::Drop) }
    }

    pub fn close(&self, table: Parts) -> Call {
        Call { table, room: self.pool.sheet.closing_length(), ..Call::of(Function::Close) }
    }

    /// The call that a return in a record waits for, with its messages.
    pub fn next(&self, record: usize) -> Call {
        match other_stage(record) {
            AWAITS_ONE => self.round(Function::RoundOne, id(record), record),
            AWAITS_TWO => self.round(Function::RoundTwo, id(record), record),
            _ => self.enter(id(record)),
        }
    }

    /// A call that decides the return in a record: a round two that rejects it where it awaits that, an entry where it
    /// awaits that, else a drop.
    pub fn decide(&self, record: usize) -> Call {
        match other_stage(record) {
            AWAITS_TWO => {
                let [message, _] = altered(&self.joined_two[record], 0);
                Call { message, ..self.next(record) }
            }
            AWAITS_ENTRY => self.next(record),
            _ => self.drop(id(record)),
        }
    }
}

/// The table after a call that must be done.
pub fn after(suite: &mut Suite, call: &Call) -> Result<Parts, String> {
    suite.number(call, 0)?;
    suite.check(call)?.map(|done| done.table).map_err(|number| format!("refused {number}"))
}
