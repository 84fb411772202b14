//! Two servers at which many returns are on their way, in the plain and in the lent form.

use std::collections::BTreeMap;

use super::twins::Twins;
use super::{honest, ONE_BYTES, TWO_BYTES};
use second::gen::{Answer, Call, Server};
use second::{Stage, Verdict};

pub const SHEET: [u8; 5] = [17, 18, 3, 19, 4];

/// Two servers, with the joined messages of the returns on their way.
#[derive(Clone)]
pub struct Hall {
    pub tables: Vec<Twins>,
    pub first: BTreeMap<u32, Vec<u8>>,
    pub second: BTreeMap<u32, Vec<u8>>,
}

impl Hall {
    pub fn open(limit: u32) -> Hall {
        Hall {
            tables: Twins::open_all(2, &SHEET, limit, 1),
            first: BTreeMap::new(),
            second: BTreeMap::new(),
        }
    }

    /// One in which these ids await round one.
    pub fn waiting(limit: u32, ids: impl IntoIterator<Item = u32>) -> Hall {
        let mut hall = Hall::open(limit);
        for id in ids {
            hall.share_all(id);
        }
        hall
    }

    /// A call at both servers; gives the messages, joined.
    pub fn all(&mut self, call: impl Fn(usize) -> Call) -> Vec<u8> {
        let tables = self.tables.iter_mut().enumerate();
        let answers = tables.map(|(own, table)| match table.call(&call(own)) {
            Answer::Message(message) => message,
            other => panic!("{other:?}"),
        });
        answers.collect::<Vec<_>>().concat()
    }

    pub fn share_all(&mut self, id: u32) {
        let joined = self.all(|own| share(own, id));
        self.first.insert(id, joined);
    }

    pub fn one_all(&mut self, id: u32) {
        let call = self.one(id);
        let joined = self.all(|_| call.clone());
        self.second.insert(id, joined);
    }

    /// Round two of an honest return, which awaits entry then.
    pub fn two_all(&mut self, id: u32) {
        let call = self.two(id);
        for table in &mut self.tables {
            assert_eq!(table.call(&call), Answer::Verdict(Verdict::Accepted));
        }
    }

    pub fn enter_all(&mut self, id: u32) {
        for table in &mut self.tables {
            assert_eq!(table.call(&Call::Enter { id }), Answer::Entered);
        }
    }

    /// Takes a return that awaits round one to its accepted verdict.
    pub fn accept_all(&mut self, id: u32) {
        self.one_all(id);
        self.two_all(id);
    }

    pub fn drop_all(&mut self, id: u32) {
        for table in &mut self.tables {
            assert_eq!(table.call(&Call::Drop { id }), Answer::Dropped);
        }
    }

    pub fn one(&self, id: u32) -> Call {
        one(id, &self.first[&id])
    }

    pub fn two(&self, id: u32) -> Call {
        two(id, &self.second[&id])
    }

    pub fn stage(&self, id: u32) -> Option<Stage> {
        self.tables[0].plain.stage(id)
    }

    /// A call that server 0 refuses with this number.
    pub fn refused(&mut self, number: u32, call: Call) {
        let answer = self.tables[0].call(&call);
        assert_eq!(answer, Answer::Refused(number), "{call}");
    }
}

pub fn share(own: usize, id: u32) -> Call {
    share_of(honest(&SHEET, 2, id)[own].clone(), 100)
}

pub fn share_of(message: Vec<u8>, r: u64) -> Call {
    Call::Share {
        message,
        r,
        s: 3,
        room: ONE_BYTES,
    }
}

pub fn one(id: u32, joined: &[u8]) -> Call {
    Call::RoundOne {
        id,
        joined: joined.to_vec(),
        room: TWO_BYTES,
    }
}

pub fn two(id: u32, joined: &[u8]) -> Call {
    Call::RoundTwo {
        id,
        joined: joined.to_vec(),
    }
}

pub const CLOSE: Call = Call::Close { room: 1000 };
