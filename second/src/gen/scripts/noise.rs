//! Refused calls between the others.

use super::builder::Builder;
use super::joined::length_of;
use super::{Answer, Call, Server};
use crate::field::P;
use crate::gen::any::{any_id, any_room};
use crate::gen::{pair, sheets, Rng};
use crate::judging::{ROUND_ONE, ROUND_ONE_LENGTH, ROUND_TWO, ROUND_TWO_LENGTH};
use crate::making::header;
use crate::seeds::SEED;

impl Builder {
    /// Adds up to three refused calls at a server. A call that would be taken is left out.
    pub fn noise(&mut self, server: u32) {
        if self.rng.chance(50) {
            return;
        }
        for _ in 0..self.rng.between(1, 3) {
            let call = match self.rng.below(9) {
                0..=2 => self.noise_share(server),
                3 | 4 => self.noise_round(server, ROUND_ONE),
                5 | 6 => self.noise_round(server, ROUND_TWO),
                7 => Call::Enter {
                    id: self.some_id(server),
                },
                _ if self.rng.chance(50) => Call::Drop {
                    id: self.some_id(server),
                },
                _ => Call::Close {
                    room: any_room(&mut self.rng, self.sheet.closing_length(), 70),
                },
            };
            let mut trial = self.tables[server as usize].clone();
            if let Answer::Refused(_) = trial.call(&call) {
                self.call(server, call);
            }
        }
    }

    /// An id that waits at a server, one that is decided there, or any.
    fn some_id(&mut self, server: u32) -> u32 {
        let table = &self.tables[server as usize];
        let known: Vec<u32> = match self.rng.below(5) {
            0 | 1 => table.waiting().iter().map(|(id, _)| *id).collect(),
            2 | 3 => table.decided().to_vec(),
            _ => Vec::new(),
        };
        match known.len() {
            0 => any_id(&mut self.rng),
            count => known[self.rng.index(count)],
        }
    }

    /// A share with several faults, one or none.
    fn noise_share(&mut self, server: u32) -> Call {
        let id = self.some_id(server);
        let rng = &mut self.rng;
        let percent = rng.pick([5, 15, 40]);
        let elements = self.sheet.share_elements();
        let gates = self.sheet.multiplications();
        let mut message = header(id, server as u8).to_vec();
        if rng.chance(30) {
            message[0] = SEED;
            message.extend(rng.seed());
        } else {
            message.extend(sheets::elements(rng, elements));
        }
        let (mut r, mut s) = pair(rng, gates);
        damage_share(rng, percent, &mut message);
        if rng.chance(percent) {
            r = wrong_r(rng, gates as u64);
        }
        if rng.chance(percent) {
            let far = rng.between(P, u64::MAX - 1);
            s = rng.pick([P, P + 1, 1 << 32, (1 << 32) + 1, far, u64::MAX]);
        }
        let mut room = ROUND_ONE_LENGTH;
        if rng.chance(percent) {
            room = rng.index(ROUND_ONE_LENGTH);
        }
        Call::Share {
            message,
            r,
            s,
            room,
        }
    }

    /// A round's joined messages with several faults, one or none; now and then of another id
    /// than the named one.
    fn noise_round(&mut self, server: u32, kind: u8) -> Call {
        let id = self.some_id(server);
        let other = self.some_id(server);
        let of = if self.rng.chance(25) { other } else { id };
        let mut joined = self.joined(of, kind);
        let mut room = ROUND_TWO_LENGTH;
        for _ in 0..self.rng.below(3) {
            if joined.len() < length_of(kind) {
                break;
            }
            if self.rng.chance(10) {
                room = self.rng.index(ROUND_TWO_LENGTH);
            } else {
                self.damage_joined(server, kind, &mut joined);
            }
        }
        if kind == ROUND_ONE {
            Call::RoundOne { id, joined, room }
        } else {
            Call::RoundTwo { id, joined }
        }
    }
}

/// Puts faults into a share message, each in so many of a hundred cases.
fn damage_share(rng: &mut Rng, percent: u64, message: &mut Vec<u8>) {
    let elements = (message.len() - 6) / 4;
    if rng.chance(percent) {
        // Among them the kind byte of the other message.
        message[0] = rng.pick([0, 17, 33, 34, 36, 37, 38, 39, 255]);
    }
    if rng.chance(percent) {
        message[5] = rng.pick([0, 1, 2, 7, 8, 255]);
    }
    if rng.chance(percent) {
        let at = 6 + 4 * rng.index(elements);
        message[at..at + 4].copy_from_slice(&rng.no_element().to_le_bytes());
    }
    if rng.chance(percent) {
        let any = rng.index(message.len());
        let n = message.len();
        let length = rng.pick([0, 1, 5, 6, any, n - 4, n - 1, n + 1, n + 4]);
        message.resize(length, 0);
    }
}

/// An r outside its range.
fn wrong_r(rng: &mut Rng, gates: u64) -> u64 {
    let far = rng.between(P, u64::MAX - 1);
    let wide = 1 << 32;
    let cut = wide + gates + 1;
    rng.pick([0, 1, gates, P, P + 1, wide + 4, cut, far, u64::MAX])
}
