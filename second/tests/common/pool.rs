//! A pool in the plain and in the lent form that takes returns to every end.

use super::rounds::messages;
use super::twins::Twins;
use super::{closing, honest, sums, words, ONE_BYTES, P32, ROOM, TWO_BYTES};
use second::field;
use second::gen::{Answer, Call, Server};
use second::{join, Joined, Verdict};

pub const SHEET: [u8; 3] = [17, 18, 2];

/// A close with room enough.
pub const CLOSE: Call = Call::Close { room: 1000 };

/// How a return ends: dropped before round one, after it, or after an accepted verdict.
#[derive(Clone, Copy, Debug, PartialEq)]
pub enum End {
    Entered,
    Rejected,
    Dropped,
    DroppedLate,
    DroppedAccepted,
}

/// S tables opened alike, and the returns that were entered.
#[derive(Clone, Debug, PartialEq)]
pub struct Pool {
    pub tables: Vec<Twins>,
    limit: u32,
    next: u32,
    entered: Vec<Vec<Vec<u8>>>,
    joined: Vec<u8>,
}

impl Pool {
    pub fn open(servers: u32, limit: u32, least: u32) -> Pool {
        Pool {
            tables: Twins::open_all(servers, &SHEET, limit, least),
            limit,
            next: 100,
            entered: Vec::new(),
            joined: Vec::new(),
        }
    }

    fn shares(&self, id: u32) -> Vec<Vec<u8>> {
        honest(&SHEET, self.tables.len() as u32, id)
    }

    pub fn share_call(&self, own: usize, id: u32) -> Call {
        Call::Share {
            message: self.shares(id)[own].clone(),
            r: 100,
            s: 3,
            room: ONE_BYTES,
        }
    }

    /// Every server takes its share of a new return; gives the id.
    pub fn share(&mut self) -> u32 {
        let id = self.next;
        self.next += 1;
        let calls = (0..self.tables.len()).map(|own| self.share_call(own, id));
        let calls: Vec<Call> = calls.collect();
        self.joined = messages(&mut self.tables, |own| calls[own].clone());
        id
    }

    /// Every server takes round one of the last return.
    pub fn one(&mut self, id: u32) {
        let (joined, room) = (self.joined.clone(), TWO_BYTES);
        let call = Call::RoundOne { id, joined, room };
        self.joined = messages(&mut self.tables, |_| call.clone());
    }

    /// Every server takes round two of the last return, which is honest and awaits entry then.
    pub fn accept(&mut self, id: u32) {
        let joined = self.joined.clone();
        let call = Call::RoundTwo { id, joined };
        for table in &mut self.tables {
            let answer = table.call(&call);
            assert_eq!(answer, Answer::Verdict(Verdict::Accepted));
        }
    }

    /// Every server enters an accepted return.
    pub fn enter(&mut self, id: u32) {
        for table in &mut self.tables {
            assert_eq!(table.call(&Call::Enter { id }), Answer::Entered);
        }
        self.entered.push(self.shares(id));
    }

    /// Takes a new return to its accepted verdict; gives the id.
    pub fn accepted(&mut self) -> u32 {
        let id = self.share();
        self.one(id);
        self.accept(id);
        id
    }

    pub fn drop(&mut self, id: u32) {
        for table in &mut self.tables {
            assert_eq!(table.call(&Call::Drop { id }), Answer::Dropped);
        }
    }

    /// Takes a new return to its end.
    pub fn take(&mut self, end: End) {
        let id = self.share();
        if end == End::Dropped {
            return self.drop(id);
        }
        self.one(id);
        if matches!(end, End::Entered | End::DroppedAccepted) {
            self.accept(id);
        }
        match end {
            End::Entered => self.enter(id),
            End::Rejected => self.reject(id),
            _ => self.drop(id),
        }
    }

    /// Every server is told of another's sigma with 1 added: no sum is 0 then.
    pub fn reject(&mut self, id: u32) {
        let servers = self.tables.len();
        for own in 0..servers {
            let mut joined = self.joined.clone();
            let at = TWO_BYTES * ((own + 1) % servers) + 6;
            let old = u32::from_le_bytes(joined[at..at + 4].try_into().unwrap());
            joined[at..at + 4].copy_from_slice(&((old + 1) % P32).to_le_bytes());
            assert_eq!(sums(&joined), (1, 0));
            let two = self.tables[own].call(&Call::RoundTwo { id, joined });
            assert_eq!(two, Answer::Verdict(Verdict::Rejected));
        }
    }

    /// Every server refuses a call with this number and stays as it was.
    pub fn refused(&mut self, number: u32, call: Call) {
        for table in &mut self.tables {
            let before = table.clone();
            assert_eq!(table.call(&call), Answer::Refused(number), "{call}");
            assert!(*table == before);
        }
    }

    /// The closing message of a server: the entered returns and the sums of its shares.
    pub fn closing_of(&self, own: usize) -> Vec<u8> {
        let entry = |shares: &Vec<Vec<u8>>, k: usize| {
            let at = 6 + 4 * k;
            field::elements(&shares[own][at..at + 4]).unwrap()[0]
        };
        let total = |k: usize| field::sum(self.entered.iter().map(|shares| entry(shares, k)));
        let totals = [0, 1, 2].map(|k| total(k) as u32);
        closing(own as u8, self.entered.len() as u32, &totals)
    }

    /// Closes every table; gives the closing messages, which are those of the entered returns.
    pub fn closings(&mut self) -> Vec<u8> {
        let joined = messages(&mut self.tables, |_| CLOSE);
        let must = (0..self.tables.len()).flat_map(|own| self.closing_of(own));
        assert!(must.eq(joined.iter().copied()));
        joined
    }

    /// Closes every table and joins; the totals are those of the entered returns.
    pub fn closed(&mut self) -> Joined {
        let (servers, joined) = (self.tables.len() as u32, self.closings());
        let answer = join(servers, &SHEET, self.limit, &joined, ROOM).unwrap();
        let mut totals = [0; 3];
        for (total, k) in totals.iter_mut().zip(0..) {
            let shares = self.entered.iter().flatten();
            let entries = shares.map(|share| field::elements(&share[6..18]).unwrap()[k]);
            *total = field::sum(entries) as u32;
        }
        let count = self.entered.len() as u32;
        let totals = words(&totals);
        assert_eq!(answer, Joined { count, totals });
        answer
    }
}
