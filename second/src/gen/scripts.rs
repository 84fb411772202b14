//! Whole scripts of calls at S servers.

mod builder;
mod calls;
mod end;
mod joined;
mod noise;
mod orderly;
mod text;
mod wild;

use super::{Exchange, Return};
use crate::joining::Joined;
use builder::Builder;
pub use calls::{Answer, Call, Server, Step};

/// A script: S tables opened alike, one list of steps for all of them, and joins of what
/// they wrote at the end. A pool that does not reach Q is not closed.
#[derive(Clone, Debug, PartialEq, Eq)]
pub struct Script {
    /// The seed it comes from.
    pub seed: u64,
    /// S.
    pub servers: u32,
    /// The sheet.
    pub sheet: Vec<u8>,
    /// N.
    pub limit: u32,
    /// Q.
    pub least: u32,
    /// Openings of the same pool with a Q outside 1 to N.
    pub openings: Vec<Exchange>,
    /// The returns that play a part; each stands at one id.
    pub returns: Vec<Return>,
    /// The calls in order. Only the order at each server matters.
    pub steps: Vec<Step>,
    /// Joins, recounts and lines. In an orderly script that is closed the first is the join of the
    /// closing messages, unaltered and with enough room.
    pub joins: Vec<Exchange>,
    /// For an orderly script that is closed, the count and the totals that must come out, summed
    /// up from the added-up entries of the returns that every server entered.
    pub truth: Option<Joined>,
}

impl Script {
    /// A script by its seed: two of three are orderly.
    pub fn random(seed: u64) -> Script {
        if seed % 3 == 2 {
            Script::wild(seed)
        } else {
            Script::orderly(seed)
        }
    }

    /// A whole pool under demand 3's conditions: fresh servers opened alike, round
    /// messages unaltered, entries and drops in the same order, all closed at the end when Q
    /// are entered. Between the good calls stand refused ones.
    pub fn orderly(seed: u64) -> Script {
        let mut builder = Builder::new(seed);
        builder.orderly();
        builder.finish(true)
    }

    /// Calls in any order with any arguments: each server goes its own way, meets messages
    /// that nobody wrote, and may enter what the others dropped.
    pub fn wild(seed: u64) -> Script {
        let mut builder = Builder::new(seed);
        builder.wild();
        builder.finish(false)
    }

    /// Plays the script on tables that `open` gives for each server number. Gives the
    /// position of the first step whose answer differs, with that answer.
    pub fn play<T: Server>(&self, open: impl FnMut(u32) -> T) -> Result<(), (usize, Answer)> {
        let mut tables: Vec<T> = (0..self.servers).map(open).collect();
        for (position, step) in self.steps.iter().enumerate() {
            let answer = tables[step.server as usize].call(&step.call);
            if answer != step.answer {
                return Err((position, answer));
            }
        }
        Ok(())
    }
}
