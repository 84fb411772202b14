//! Scripts with calls in any order and with any arguments.

use super::builder::Builder;
use super::joined::{length_of, start_of};
use super::{Answer, Call};
use crate::field::{self, WIDTH};
use crate::gen::any::any_room;
use crate::gen::pair;
use crate::judging::{
    CHALLENGES, ELEMENTS, ROUND_ONE, ROUND_ONE_LENGTH, ROUND_TWO, ROUND_TWO_LENGTH,
};
use crate::refusal;
use crate::table::{Stage, PLACES};

impl Builder {
    /// Makes calls that mostly fit what waits at the table, then closes most tables.
    pub fn wild(&mut self) {
        // In so many of a hundred cases a table takes one more share while others wait.
        let eager = self.rng.pick([20, 50, 80]);
        let steps = 12 * self.planned * u64::from(self.servers) / 2;
        for _ in 0..steps {
            let server = self.rng.below(u64::from(self.servers)) as u32;
            if self.rng.chance(20) || self.tables[server as usize].closed() {
                self.noise(server);
            } else {
                let call = self.wild_call(server, eager);
                self.call(server, call);
            }
        }
        for server in self.order() {
            if self.rng.chance(90) {
                self.end_and_close(server);
            }
        }
    }

    /// Ends what waits at a server and closes its table. While too few are entered, more calls
    /// come, and another close.
    fn end_and_close(&mut self, server: u32) {
        let few = Answer::Refused(refusal::FEW);
        while self.end_and_try(server) == few && self.goes_on() {
            for _ in 0..10 {
                let call = self.wild_call(server, 15);
                self.call(server, call);
            }
        }
    }

    /// Drops what waits at a server, or enters it where it can, and tries to close its table.
    /// Now and then one is left, and the close is refused.
    fn end_and_try(&mut self, server: u32) -> Answer {
        for (id, stage) in self.tables[server as usize].waiting() {
            if self.rng.chance(3) {
                continue;
            }
            let enter = stage == Stage::AwaitsEntry && self.rng.chance(60);
            let call = if enter {
                Call::Enter { id }
            } else {
                Call::Drop { id }
            };
            self.call(server, call);
        }
        let room = any_room(&mut self.rng, self.sheet.closing_length(), 10);
        self.call(server, Call::Close { room })
    }

    /// A call that mostly fits what waits at the table.
    fn wild_call(&mut self, server: u32, eager: u64) -> Call {
        let waiting = self.tables[server as usize].waiting();
        if waiting.is_empty() && self.rng.chance(3) {
            let room = any_room(&mut self.rng, self.sheet.closing_length(), 10);
            return Call::Close { room };
        }
        let percent = match waiting.len() {
            0 => 100,
            PLACES => 5,
            _ => eager,
        };
        if self.rng.chance(percent) {
            return self.wild_share(server);
        }
        let (id, stage) = waiting[self.rng.index(waiting.len())];
        match stage {
            _ if self.rng.chance(10) => Call::Drop { id },
            Stage::AwaitsEntry => Call::Enter { id },
            Stage::AwaitsRoundOne => Call::RoundOne {
                id,
                joined: self.wild_joined(server, id, ROUND_ONE),
                room: any_room(&mut self.rng, ROUND_TWO_LENGTH, 5),
            },
            Stage::AwaitsRoundTwo => Call::RoundTwo {
                id,
                joined: self.wild_joined(server, id, ROUND_TWO),
            },
        }
    }

    /// A share for one server: an old return or a new one, its own pair or another.
    fn wild_share(&mut self, server: u32) -> Call {
        // Mostly one that neither waits here nor is decided.
        let table = &self.tables[server as usize];
        let used = |id| table.decided().contains(&id) || table.stage(id).is_some();
        let open: Vec<usize> = (0..self.returns.len())
            .filter(|&number| !used(self.returns[number].id))
            .collect();
        let more = (self.returns.len() as u64) < self.planned || open.is_empty();
        let number = if self.returns.is_empty() || (more && self.rng.chance(25)) {
            self.new_return()
        } else if open.is_empty() || self.rng.chance(15) {
            self.rng.index(self.returns.len())
        } else {
            open[self.rng.index(open.len())]
        };
        let given = &self.returns[number];
        let (mut r, mut s) = (given.r, given.s);
        let message = given.shares[server as usize].clone();
        if self.rng.chance(10) {
            (r, s) = pair(&mut self.rng, self.sheet.multiplications());
        }
        let room = any_room(&mut self.rng, ROUND_ONE_LENGTH, 5);
        Call::Share {
            message,
            r,
            s,
            room,
        }
    }

    /// Joined messages for a return that waits at a server: those that were written, made-up
    /// ones for the servers that wrote none, one of them sometimes such that the sums are 0.
    /// Round one's mostly all have the server's own challenges, whatever was written.
    fn wild_joined(&mut self, server: u32, id: u32, kind: u8) -> Vec<u8> {
        let mut joined = self.joined(id, kind);
        if kind == ROUND_ONE && self.rng.chance(70) {
            make_even(&mut joined, server);
        }
        let other = (server + 1) % self.servers;
        let start = start_of(&joined, length_of(kind), other);
        if let Some(start) = start.filter(|_| self.rng.chance(60)) {
            balance(&mut joined, length_of(kind), start);
        }
        joined
    }
}

/// Gives all messages of round one the challenges of a server's.
fn make_even(joined: &mut [u8], server: u32) {
    let Some(own) = start_of(joined, ROUND_ONE_LENGTH, server) else {
        return;
    };
    let pair = joined[own + CHALLENGES..own + ROUND_ONE_LENGTH].to_vec();
    for message in joined.chunks_exact_mut(ROUND_ONE_LENGTH) {
        message[CHALLENGES..].copy_from_slice(&pair);
    }
}

/// Makes the sums of the first and of the second elements 0, by those of the message that starts
/// at a place.
fn balance(joined: &mut [u8], length: usize, start: usize) {
    let (from, end) = (start + ELEMENTS, start + ELEMENTS + 2 * WIDTH);
    joined[from..end].fill(0);
    let mut sums = [0, 0];
    for message in joined.chunks_exact(length) {
        for (sum, word) in sums.iter_mut().zip(field::words(&message[ELEMENTS..])) {
            *sum = field::add(*sum, u64::from(word));
        }
    }
    let [x, y] = sums.map(|sum| field::bytes(field::sub(0, sum)));
    joined[from..end].copy_from_slice(&[x, y].concat());
}
