//! Pools that the library plays alone: it makes the returns, judges them and joins the totals. What must come out is
//! told from the values.

mod honest;

use second::gen::{self, Rng};
use second::seeds::SEED_MESSAGE_LENGTH;
use second::Sheet;

use crate::calls::{Call, Done, Function};
use crate::layout::{id_of, Parts};
use crate::reference::{ONE_BYTES, TWO_BYTES};
use crate::seeds::long;
use crate::suite::{Suite, Verdict};
pub use honest::{highest, large, many, pool};

/// S tables opened alike, with what the tests need to know of them.
pub struct Pool {
    pub servers: u32,
    pub bytes: Vec<u8>,
    pub sheet: Sheet,
    pub returns: u32,
    pub least: u32,
    pub tables: Vec<Parts>,
}

/// What a call gave that must be done.
fn done(suite: &mut Suite, call: &Call) -> Result<Done, String> {
    suite.check(call)?.map_err(|number| suite.failure(call, &format!("refused {number}\nmust be done")))
}

impl Pool {
    /// Opens S tables with Q = 1.
    pub fn open(suite: &mut Suite, servers: u32, bytes: &[u8], returns: u32) -> Result<Pool, String> {
        Pool::open_from(suite, servers, bytes, returns, 1)
    }

    /// Opens S tables with any Q.
    pub fn open_from(suite: &mut Suite, servers: u32, bytes: &[u8], returns: u32, least: u32) -> Result<Pool, String> {
        let sheet = Sheet::read(bytes).map_err(|number| format!("the test's sheet is refused {number}"))?;
        let mut tables = Vec::new();
        for own in 0..servers {
            let call = Call { least, ..Call::open_table(servers, own, bytes, returns) };
            tables.push(done(suite, &call)?.table);
        }
        Ok(Pool { servers, bytes: bytes.to_vec(), sheet, returns, least, tables })
    }

    /// Makes a return; gives its S share messages.
    pub fn make(&self, suite: &mut Suite, rng: &mut Rng, id: u32, values: &[u8]) -> Result<Vec<Vec<u8>>, String> {
        let count = (self.servers as usize - 1) * self.sheet.share_elements() + 4;
        let call = Call {
            sheet: self.bytes.clone(),
            servers: self.servers,
            id,
            values: values.to_vec(),
            random: gen::elements(rng, count),
            room: self.servers as usize * self.sheet.share_length(),
            ..Call::of(Function::Make)
        };
        let made = done(suite, &call)?.bytes;
        Ok(made.chunks(self.sheet.share_length()).map(<[u8]>::to_vec).collect())
    }

    /// Makes a return from seeds; gives its S messages, server 0's long one first.
    pub fn make_seeded(
        &self,
        suite: &mut Suite,
        rng: &mut Rng,
        id: u32,
        values: &[u8],
    ) -> Result<Vec<Vec<u8>>, String> {
        let others = self.servers as usize - 1;
        let call = Call {
            sheet: self.bytes.clone(),
            servers: self.servers,
            id,
            values: values.to_vec(),
            random: gen::elements(rng, 4),
            seeds: (0..others).flat_map(|_| rng.seed()).collect(),
            room: self.sheet.share_length() + SEED_MESSAGE_LENGTH * others,
            ..Call::of(Function::MakeSeeded)
        };
        let made = done(suite, &call)?.bytes;
        let (first, rest) = made.split_at(self.sheet.share_length());
        let mut shares = vec![first.to_vec()];
        shares.extend(rest.chunks(SEED_MESSAGE_LENGTH).map(<[u8]>::to_vec));
        Ok(shares)
    }

    /// Makes a return one way or the other; some hosts expand seeds themselves and send long messages.
    pub fn make_any(&self, suite: &mut Suite, rng: &mut Rng, id: u32, values: &[u8]) -> Result<Vec<Vec<u8>>, String> {
        if rng.chance(40) {
            return self.make(suite, rng, id, values);
        }
        let mut shares = self.make_seeded(suite, rng, id, values)?;
        let percent = rng.pick([0, 50]);
        for share in shares[1..].iter_mut().filter(|_| rng.chance(percent)) {
            *share = long(&self.sheet, share);
        }
        Ok(shares)
    }

    /// Makes a return of values that are all 0.
    pub fn make_zeros(&self, suite: &mut Suite, rng: &mut Rng, id: u32) -> Result<Vec<Vec<u8>>, String> {
        self.make(suite, rng, id, &vec![0; 4 * self.sheet.columns().len()])
    }

    /// A call on one table, which must be done; keeps the table.
    pub fn at(&mut self, suite: &mut Suite, server: usize, call: Call) -> Result<Done, String> {
        let table = std::mem::take(&mut self.tables[server]);
        let done = done(suite, &Call { table, ..call })?;
        self.tables[server] = done.table.clone();
        Ok(done)
    }

    /// Every server takes its share; gives the joined round-one messages.
    pub fn share(&mut self, suite: &mut Suite, shares: &[Vec<u8>], r: u64, s: u64) -> Result<Vec<u8>, String> {
        self.share_with(suite, shares, &vec![(r, s); shares.len()])
    }

    /// The same, each server with its own r and s.
    pub fn share_with(
        &mut self,
        suite: &mut Suite,
        shares: &[Vec<u8>],
        pairs: &[(u64, u64)],
    ) -> Result<Vec<u8>, String> {
        let mut joined = Vec::new();
        for (server, (message, &(r, s))) in shares.iter().zip(pairs).enumerate() {
            let call = Call { message: message.clone(), r, s, room: ONE_BYTES, ..Call::of(Function::Share) };
            joined.extend(self.at(suite, server, call)?.bytes);
        }
        Ok(joined)
    }

    /// Every server takes round one of the messages' id; gives the joined round-two messages.
    pub fn round_one(&mut self, suite: &mut Suite, joined: &[u8]) -> Result<Vec<u8>, String> {
        let mut next = Vec::new();
        for server in 0..self.tables.len() {
            let (id, message) = (id_of(joined), joined.to_vec());
            let call = Call { id, message, room: TWO_BYTES, ..Call::of(Function::RoundOne) };
            next.extend(self.at(suite, server, call)?.bytes);
        }
        Ok(next)
    }

    /// Every server takes round two of the messages' id; gives the verdicts.
    pub fn round_two(&mut self, suite: &mut Suite, joined: &[u8]) -> Result<Vec<u64>, String> {
        let mut verdicts = Vec::new();
        for server in 0..self.tables.len() {
            let call = Call { id: id_of(joined), message: joined.to_vec(), ..Call::of(Function::RoundTwo) };
            verdicts.extend(self.at(suite, server, call)?.numbers);
        }
        Ok(verdicts)
    }

    /// Takes a return through share and both rounds; gives the verdicts.
    pub fn judge(&mut self, suite: &mut Suite, shares: &[Vec<u8>], r: u64, s: u64) -> Result<Vec<u64>, String> {
        let joined = self.share(suite, shares, r, s)?;
        let joined = self.round_one(suite, &joined)?;
        self.round_two(suite, &joined)
    }

    /// The same, and enters the return where it is accepted.
    pub fn admit(&mut self, suite: &mut Suite, shares: &[Vec<u8>], r: u64, s: u64) -> Result<Vec<u64>, String> {
        let verdicts = self.judge(suite, shares, r, s)?;
        if verdicts.iter().all(|&verdict| verdict == 1) {
            self.enter(suite, id_of(&shares[0]))?;
        }
        Ok(verdicts)
    }

    /// Enters the accepted return that waits under an id at every server.
    pub fn enter(&mut self, suite: &mut Suite, id: u32) -> Verdict {
        (0..self.tables.len()).try_for_each(|server| self.enter_at(suite, server, id))
    }

    pub fn enter_at(&mut self, suite: &mut Suite, server: usize, id: u32) -> Verdict {
        self.at(suite, server, Call { id, ..Call::of(Function::Enter) }).map(|_| ())
    }

    /// Drops the return that waits under an id at every server.
    pub fn drop(&mut self, suite: &mut Suite, id: u32) -> Verdict {
        (0..self.tables.len()).try_for_each(|server| self.drop_at(suite, server, id))
    }

    pub fn drop_at(&mut self, suite: &mut Suite, server: usize, id: u32) -> Verdict {
        self.at(suite, server, Call { id, ..Call::of(Function::Drop) }).map(|_| ())
    }

    /// Every table refuses to close with this number.
    pub fn close_refused(&self, suite: &mut Suite, number: u32) -> Verdict {
        let room = self.sheet.closing_length();
        for table in &self.tables {
            suite.number(&Call { table: table.clone(), room, ..Call::of(Function::Close) }, number)?;
        }
        Ok(())
    }

    /// Closes every table; gives the joining of what they wrote.
    pub fn close(&mut self, suite: &mut Suite) -> Result<Call, String> {
        let mut message = Vec::new();
        for server in 0..self.tables.len() {
            message.extend(self.close_at(suite, server)?);
        }
        Ok(self.joining(message))
    }

    /// Closes one table; gives its totals message.
    pub fn close_at(&mut self, suite: &mut Suite, server: usize) -> Result<Vec<u8>, String> {
        let room = self.sheet.closing_length();
        Ok(self.at(suite, server, Call { room, ..Call::of(Function::Close) })?.bytes)
    }

    /// The joining of totals messages.
    pub fn joining(&self, message: Vec<u8>) -> Call {
        let (servers, returns, sheet) = (self.servers, self.returns, self.bytes.clone());
        let room = 4 * self.sheet.published();
        Call { servers, returns, sheet, message, room, ..Call::of(Function::Join) }
    }
}
