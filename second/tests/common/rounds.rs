//! Both rounds of a return, and their joined messages in other orders and altered.

use super::twins::Twins;
use super::{each_message, honest, message_length, with, ONE_BYTES, P32, TWO_BYTES};
use second::gen::{Answer, Call, Server};

pub const SHEET: [u8; 5] = [17, 18, 3, 19, 4];
pub const ID: u32 = 0x0403_0201;
/// The r and s of every server.
pub const PAIR: (u64, u64) = (100, 3);

/// The tables of S servers that await a round, and its messages in server order.
pub struct Round {
    pub tables: Vec<Twins>,
    pub joined: Vec<u8>,
    pub second: bool,
}

impl Round {
    pub fn call(&self, joined: &[u8]) -> Call {
        let (id, joined) = (ID, joined.to_vec());
        match self.second {
            false => Call::RoundOne {
                id,
                joined,
                room: TWO_BYTES,
            },
            true => Call::RoundTwo { id, joined },
        }
    }

    /// What a server answers, and its table after that.
    pub fn answer(&self, own: usize, joined: &[u8]) -> (Answer, Twins) {
        let mut table = self.tables[own].clone();
        (table.call(&self.call(joined)), table)
    }

    /// All servers take the messages with the answer and the table of server order.
    pub fn as_in_server_order(&self, joined: &[u8]) {
        for own in 0..self.tables.len() {
            let must = self.answer(own, &self.joined);
            assert!(!matches!(must.0, Answer::Refused(_)));
            assert!(self.answer(own, joined) == must, "{own}: {joined:?}");
        }
    }

    /// All servers refuse the messages 12.
    pub fn refused(&self, joined: &[u8]) {
        for own in 0..self.tables.len() {
            self.refuses(own, 12, joined);
        }
    }

    /// A server refuses the messages with this number, and its table stays as it was.
    pub fn refuses(&self, own: usize, number: u32, joined: &[u8]) {
        let (answer, after) = self.answer(own, joined);
        assert_eq!(answer, Answer::Refused(number), "{own}: {joined:?}");
        assert!(after == self.tables[own]);
    }

    /// The length of each message.
    pub fn length(&self) -> usize {
        message_length(&self.joined)
    }
}

/// Round one of an honest return; each server took its share with its own r and s.
pub fn first_round(pairs: &[(u64, u64)]) -> Round {
    let servers = pairs.len() as u32;
    let mut tables = Twins::open_all(servers, &SHEET, 5, 1);
    let joined = messages(&mut tables, |own| {
        share_call(servers, own, ID, pairs[own], ONE_BYTES)
    });
    Round {
        tables,
        joined,
        second: false,
    }
}

/// Both rounds of an honest return at S servers.
pub fn rounds(servers: u32) -> [Round; 2] {
    let one = first_round(&vec![PAIR; servers as usize]);
    let mut tables = one.tables.clone();
    let joined = messages(&mut tables, |_| one.call(&one.joined));
    let two = Round {
        tables,
        joined,
        second: true,
    };
    [one, two]
}

/// An honest share of one of S servers.
pub fn share_call(servers: u32, own: usize, id: u32, (r, s): (u64, u64), room: usize) -> Call {
    let message = honest(&SHEET, servers, id)[own].clone();
    Call::Share {
        message,
        r,
        s,
        room,
    }
}

/// A call at every server; gives the messages in server order.
pub fn messages(tables: &mut [Twins], call: impl Fn(usize) -> Call) -> Vec<u8> {
    let answers = tables.iter_mut().enumerate();
    let messages = answers.map(|(own, table)| match table.call(&call(own)) {
        Answer::Message(message) => message,
        other => panic!("{other:?}"),
    });
    messages.collect::<Vec<_>>().concat()
}

/// The messages of so many bytes each, in an order of their places.
pub fn picked(joined: &[u8], length: usize, order: &[usize]) -> Vec<u8> {
    let messages = order.iter().map(|&place| &joined[length * place..]);
    messages.flat_map(|from| &from[..length]).copied().collect()
}

/// Round messages in an order of their places.
pub fn ordered(joined: &[u8], order: &[usize]) -> Vec<u8> {
    picked(joined, message_length(joined), order)
}

/// The messages from the last to the first.
pub fn reversed(joined: &[u8]) -> Vec<u8> {
    each_message(joined).rev().collect::<Vec<_>>().concat()
}

/// Every order of so many servers.
pub fn orders(servers: usize) -> Vec<Vec<usize>> {
    let mut all = vec![Vec::new()];
    for server in 0..servers {
        let with = |order: &Vec<usize>, at| [&order[..at], &[server], &order[at..]].concat();
        let longer = |order: &Vec<usize>| (0..=server).map(|at| with(order, at)).collect();
        all = all.iter().flat_map::<Vec<_>, _>(longer).collect();
    }
    all
}

/// Where the message of a server starts.
pub fn start(joined: &[u8], server: usize) -> usize {
    let mut messages = each_message(joined);
    let place = messages.position(|message| usize::from(message[5]) == server);
    message_length(joined) * place.unwrap()
}

/// The messages with 1 added to one of the first two elements of a server's.
pub fn altered(joined: &[u8], server: usize) -> [Vec<u8>; 2] {
    [6, 10].map(|at| one_more(joined, start(joined, server) + at))
}

/// Round one's messages with 1 added to r or to s of a server's.
pub fn altered_challenges(joined: &[u8], server: usize) -> [Vec<u8>; 2] {
    [14, 18].map(|at| one_more(joined, start(joined, server) + at))
}

/// The messages with 1 added to the element at a place.
fn one_more(joined: &[u8], at: usize) -> Vec<u8> {
    let old = u32::from_le_bytes(joined[at..at + 4].try_into().unwrap());
    with(joined, at, &((old + 1) % P32).to_le_bytes())
}

/// The messages of two servers with each other's number.
pub fn exchanged(joined: &[u8], one: usize, two: usize) -> Vec<u8> {
    let other = with(joined, start(joined, one) + 5, &[two as u8]);
    with(&other, start(joined, two) + 5, &[one as u8])
}
