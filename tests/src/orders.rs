//! Joined round messages in any order, each server exactly once. What is taken and what is refused is told by hand.

mod messages;

use crate::calls::{Call, Function};
use crate::damage::{damaged, damaged_joined};
use crate::fixture::{Fixture, UNKNOWN};
use crate::reference::{message_length, TWO_BYTES};
use crate::suite::{Suite, Verdict};
pub use messages::{altered, altered_challenges, every_order, ordered, put, reversed, shuffled, start};
use messages::{exchanged, picked};

const SHEET: [u8; 3] = [17, 18, 3];

/// A server's round call, its messages in server order.
#[derive(Clone)]
struct Round {
    servers: usize,
    own: usize,
    call: Call,
}

impl Round {
    /// Both rounds at every server of S, of a return that waits alone; at the last also of one among seven others.
    fn all(suite: &mut Suite, servers: usize) -> Result<Vec<Round>, String> {
        let mut fixtures = Vec::new();
        for own in 0..servers {
            fixtures.push((own, Fixture::new(suite, servers as u32, own, &SHEET, 3)?));
        }
        fixtures.push((servers - 1, Fixture::among(suite, servers as u32, servers - 1, &SHEET, 10, 5)?));
        let calls =
            fixtures.iter().flat_map(|(own, fixture)| [(*own, fixture.round_one()), (*own, fixture.round_two())]);
        Ok(calls.map(|(own, call)| Round { servers, own, call }).collect())
    }

    fn with(&self, message: Vec<u8>) -> Call {
        Call { message, ..self.call.clone() }
    }

    /// The messages are refused 12.
    fn refused(&self, suite: &mut Suite, message: Vec<u8>) -> Verdict {
        suite.number(&self.with(message), 12)
    }

    /// The messages are taken as those in server order: the same answer, message and table.
    fn same(&self, suite: &mut Suite, message: Vec<u8>) -> Verdict {
        suite.number(&self.call, 0)?;
        let must = suite.check(&self.call)?;
        suite.number(&self.with(message.clone()), 0)?;
        suite.gives(&self.with(message), must)
    }

    /// The messages in server order and from the last to the first.
    fn both(&self) -> [Vec<u8>; 2] {
        [self.call.message.clone(), reversed(&self.call.message)]
    }

    /// The length of each message.
    fn length(&self) -> usize {
        message_length(&self.call.message)
    }

    /// Where each message starts.
    fn starts(&self) -> impl Iterator<Item = usize> + Clone {
        let length = self.length();
        (0..self.servers).map(move |place| length * place)
    }
}

/// From the last to the first, and turned by one: as in server order.
pub fn turned(suite: &mut Suite) -> Verdict {
    for servers in 2..=8 {
        for round in Round::all(suite, servers)? {
            round.same(suite, reversed(&round.call.message))?;
            let order: Vec<usize> = (1..=servers).map(|place| place % servers).collect();
            round.same(suite, ordered(&round.call.message, &order))?;
        }
    }
    Ok(())
}

/// Every run of four messages out of the four servers' and one of number 4: the 24 with each server once are taken as
/// in server order, all others are refused 12.
pub fn every_run(suite: &mut Suite) -> Verdict {
    for round in Round::all(suite, 4)? {
        let (length, mut messages) = (round.length(), round.call.message.clone());
        messages.extend_from_within(..length);
        messages[4 * length + 5] = 4;
        let mut taken = 0;
        for run in 0..625 {
            let order = [run % 5, run / 5 % 5, run / 25 % 5, run / 125];
            let message = ordered(&messages, &order);
            if (0..4).all(|server| order.contains(&server)) {
                round.same(suite, message)?;
                taken += 1;
            } else {
                round.refused(suite, message)?;
            }
        }
        if taken != 24 {
            return Err(format!("{taken} runs are taken\nmust be 24"));
        }
    }
    Ok(())
}

/// A server twice and another missing: a copy of one message, also of the own, in the place of another, or its number
/// alone.
pub fn twice(suite: &mut Suite) -> Verdict {
    for servers in [2, 3, 8] {
        for round in Round::all(suite, servers)? {
            let pairs = round.starts().flat_map(|from| round.starts().map(move |to| (from, to)));
            for (from, to) in pairs.filter(|(from, to)| from != to) {
                for mut message in round.both() {
                    let mut number = message.clone();
                    number[to + 5] = message[from + 5];
                    round.refused(suite, number)?;
                    message.copy_within(from..from + round.length(), to);
                    round.refused(suite, message)?;
                }
            }
        }
    }
    Ok(())
}

/// A server missing and a number from S on in its place, also one that ends in the same bits.
pub fn missing(suite: &mut Suite) -> Verdict {
    for servers in 2..=8 {
        for round in Round::all(suite, servers)? {
            for (at, message) in round.starts().flat_map(|at| round.both().map(|message| (at + 5, message))) {
                let same = [8, 16, 32, 64, 128, 248].map(|more| message[at] + more);
                for number in (servers as u8..=9).chain(same).chain([255]) {
                    let mut message = message.clone();
                    message[at] = number;
                    round.refused(suite, message)?;
                }
            }
        }
    }
    Ok(())
}

/// The own message altered, wherever it stands; so also when it has another's number and another one has its.
pub fn own(suite: &mut Suite) -> Verdict {
    for servers in [2, 3] {
        for (round, order) in all_orders(suite, servers)? {
            let message = ordered(&round.call.message, &order);
            for wrong in altered(&message, round.own) {
                round.refused(suite, wrong)?;
            }
            for other in (0..servers).filter(|&other| other != round.own) {
                round.refused(suite, exchanged(&message, round.own, other))?;
            }
        }
    }
    Ok(())
}

/// Every round call with every order of its messages.
fn all_orders(suite: &mut Suite, servers: usize) -> Result<Vec<(Round, Vec<usize>)>, String> {
    let rounds = Round::all(suite, servers)?;
    let orders = every_order(servers);
    Ok(rounds.iter().flat_map(|round| orders.iter().map(|order| (round.clone(), order.clone()))).collect())
}

/// Another server's first two elements altered are not noticed, wherever they stand: they are taken with other sums, and a
/// return is rejected then. Where two others have each other's number, the sums are the same.
pub fn others(suite: &mut Suite) -> Verdict {
    for (round, order) in all_orders(suite, 3)? {
        let message = ordered(&round.call.message, &order);
        let must = suite.check(&round.call)?;
        let [one, two] = [1, 2].map(|more| (round.own + more) % 3);
        for wrong in [one, two].into_iter().flat_map(|other| altered(&message, other)) {
            let call = round.with(wrong);
            suite.number(&call, 0)?;
            let after = suite.check(&call)?;
            let rejected = after.as_ref().is_ok_and(|done| done.numbers == [0]);
            if after == must || (call.function == Function::RoundTwo && !rejected) {
                return Err(suite.failure(&call, "as without the change"));
            }
        }
        round.same(suite, exchanged(&message, one, two))?;
    }
    Ok(())
}

/// One message too few or too many, whichever it is, and other lengths.
pub fn lengths(suite: &mut Suite) -> Verdict {
    for servers in [2, 3, 8] {
        for round in Round::all(suite, servers)? {
            for (at, message) in round.starts().flat_map(|at| round.both().map(|message| (at, message))) {
                let (before, after) = message.split_at(at);
                let (one, others) = after.split_at(round.length());
                round.refused(suite, [before, others].concat())?;
                let mut past = one.to_vec();
                past[5] = servers as u8;
                for more in [one, &past] {
                    round.refused(suite, [before, more, after].concat())?;
                    round.refused(suite, [&message, more].concat())?;
                }
                round.refused(suite, message[..at + one.len() - 1].to_vec())?;
                round.refused(suite, [&message[..], &[0]].concat())?;
            }
        }
    }
    Ok(())
}

/// In any order 11 comes before 12, and 12 before 14.
pub fn order(suite: &mut Suite) -> Verdict {
    for servers in [2, 3, 8] {
        for round in Round::all(suite, servers)? {
            let good = round.with(reversed(&round.call.message));
            let mut wrong = good.clone();
            wrong.message.copy_within(..round.length(), round.length());
            suite.number(&Call { id: UNKNOWN, ..wrong.clone() }, 11)?;
            let other = match good.function {
                Function::RoundOne => Function::RoundTwo,
                _ => Function::RoundOne,
            };
            suite.number(&Call { function: other, ..good.clone() }, 11)?;
            suite.number(&Call { room: 0, ..wrong }, 12)?;
            let short = if good.function == Function::RoundOne { 14 } else { 0 };
            suite.number(&Call { room: TWO_BYTES - 1, ..good }, short)?;
        }
    }
    Ok(())
}

/// Totals messages in every order of two to four servers: 12 but for server order.
pub fn totals(suite: &mut Suite) -> Verdict {
    suite.seed(20);
    for servers in 2..=4 {
        let message = |server: u8| [&[36, server, 2, 0, 0, 0][..], &[1, 0, 0, 0].repeat(4)].concat();
        let joined: Vec<u8> = (0..servers).flat_map(message).collect();
        for order in every_order(servers.into()) {
            let number = if order.is_sorted() { 0 } else { 12 };
            let (sheet, message) = (SHEET.to_vec(), picked(&joined, 22, &order));
            let (servers, returns, room) = (servers.into(), 5, 16);
            suite.number(&Call { servers, sheet, returns, message, room, ..Call::of(Function::Join) }, number)?;
        }
    }
    Ok(())
}

/// Random orders at 2 to 8 servers, every other time with random damage to the messages, now and then to the table too.
pub fn random(suite: &mut Suite) -> Verdict {
    for servers in 2..=8 {
        let rounds = Round::all(suite, servers)?;
        let mut rng = suite.seed(900 + servers as u64);
        for _ in 0..1500 {
            let round = &rounds[rng.index(rounds.len())];
            let mut call = round.with(shuffled(&mut rng, &round.call.message));
            call.room = rng.pick([TWO_BYTES, TWO_BYTES, TWO_BYTES + 1, 100, TWO_BYTES - 1, 0]);
            if rng.chance(50) {
                damaged_joined(&mut rng, round.own, round.length(), &mut call.message);
            }
            if rng.chance(10) {
                call.table = damaged(&mut rng, &call.table);
            }
            suite.agrees(&call)?;
        }
    }
    Ok(())
}
