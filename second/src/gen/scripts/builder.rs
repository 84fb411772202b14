//! A script under construction: the calls so far and the tables as these left them.

use std::collections::BTreeMap;

use super::{Answer, Call, Server, Step};
use crate::gen::any::any_id;
use crate::gen::{sheets, Origin, Return, Rng};
use crate::sheet::Sheet;
use crate::table::{self, Table};

/// A script under construction, with the tables as the calls left them.
pub(super) struct Builder {
    pub seed: u64,
    pub rng: Rng,
    pub servers: u32,
    pub bytes: Vec<u8>,
    pub sheet: Sheet,
    pub limit: u32,
    pub least: u32,
    pub tables: Vec<Table>,
    pub returns: Vec<Return>,
    /// How many returns an orderly script sends.
    pub planned: u64,
    pub steps: Vec<Step>,
    /// The round messages that were written, by id, kind byte and server.
    pub written: BTreeMap<(u32, u8, u32), Vec<u8>>,
    pub closings: BTreeMap<u32, Vec<u8>>,
    /// Servers that stopped before they entered an id.
    pub late: Vec<(u32, u32)>,
}

impl Builder {
    /// A script of a seed, before its first call.
    pub fn new(seed: u64) -> Builder {
        let mut rng = Rng::new(seed ^ 0x5EC0_4D00_0000_0000);
        let servers = rng.between(2, 8) as u32;
        let (max, planned) = match rng.below(20) {
            0 => (256, rng.between(1, 2)),
            1..=3 => (60, rng.between(1, 5)),
            4..=8 => (6, rng.between(9, 16)),
            _ => (12, rng.between(2, 12)),
        };
        let (bytes, sheet) = any_sheet(&mut rng, max);
        // N a little above or below the number of returns, or large.
        let most = sheets::largest_limit(&sheet);
        let low = rng.pick([1, planned.div_ceil(2), planned]);
        let near = rng.between(low, planned + 2) as u32;
        let limit = rng.pick([near, near, most, 1024]).min(most);
        let least = least(&mut rng, limit, planned);
        let tables = (0..servers)
            .filter_map(|own| table::open(servers, own, &bytes, limit, least).ok())
            .collect();
        Builder {
            seed,
            rng,
            servers,
            bytes,
            sheet,
            limit,
            least,
            tables,
            returns: Vec::new(),
            planned,
            steps: Vec::new(),
            written: BTreeMap::new(),
            closings: BTreeMap::new(),
            late: Vec::new(),
        }
    }

    /// Whether a pool with too few entered goes on: mostly, where N are decided now and then.
    pub fn goes_on(&mut self) -> bool {
        let full = |table: &Table| table.decided().len() == self.limit as usize;
        let full = self.tables.iter().any(full);
        self.rng.chance(if full { 40 } else { 85 })
    }

    /// Carries out a call and notes it.
    pub fn call(&mut self, server: u32, call: Call) -> Answer {
        let answer = self.tables[server as usize].call(&call);
        if let Answer::Message(message) = &answer {
            if let Call::Close { .. } = call {
                self.closings.insert(server, message.clone());
            } else if let [kind, i0, i1, i2, i3, ..] = message[..] {
                let id = u32::from_le_bytes([i0, i1, i2, i3]);
                self.written.insert((id, kind, server), message.clone());
            }
        }
        self.steps.push(Step {
            server,
            call,
            answer: answer.clone(),
            standing: table::standing(&self.tables[server as usize]),
        });
        answer
    }

    /// The server numbers in random order.
    pub fn order(&mut self) -> Vec<u32> {
        let mut order: Vec<u32> = (0..self.servers).collect();
        self.rng.shuffle(&mut order);
        order
    }

    /// An id that no return of this script has yet.
    fn fresh_id(&mut self) -> u32 {
        loop {
            let id = any_id(&mut self.rng);
            if self.returns.iter().all(|known| known.id != id) {
                return id;
            }
        }
    }

    /// Adds a return; gives its number.
    pub fn new_return(&mut self) -> usize {
        let id = self.fresh_id();
        let origin = match self.rng.below(20) {
            0..=9 => Origin::Honest,
            10..=12 => Origin::Altered,
            13 | 14 => Origin::FalseEntries,
            15 => Origin::Forged,
            16 | 17 => Origin::Lucky,
            18 => Origin::FalseTriple,
            _ => Origin::LuckyTriple,
        };
        let made = Return::mixed(&mut self.rng, &self.sheet, self.servers, id, origin);
        self.returns.push(made);
        self.returns.len() - 1
    }
}

/// A sheet that is read, with at most so many entries.
fn any_sheet(rng: &mut Rng, max: usize) -> (Vec<u8>, Sheet) {
    loop {
        let bytes = sheets::sheet(rng, max);
        if let Ok(sheet) = Sheet::read(&bytes) {
            return (bytes, sheet);
        }
    }
}

/// A Q: often 1, mostly one that the planned returns may reach, now and then N where it is near.
fn least(rng: &mut Rng, limit: u32, planned: u64) -> u32 {
    let most = planned.min(limit.into());
    let few = rng.between(1, most.div_ceil(3)) as u32;
    let some = rng.between(1, most) as u32;
    match rng.below(20) {
        0..=8 => 1,
        9..=16 => few,
        17 | 18 => some,
        _ => limit.min(planned as u32 + 2),
    }
}
