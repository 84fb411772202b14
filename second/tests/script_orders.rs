//! The joined round messages that scripts hand in: in any order, and with every fault.

mod common;

use std::collections::{BTreeMap, BTreeSet};

use common::*;
use second::field;
use second::gen::{Answer, Call, Script, Step};

/// A round call of a script.
struct Handed<'a> {
    servers: u32,
    own: u32,
    kind: u8,
    id: u32,
    joined: &'a [u8],
    /// The length of each message.
    length: usize,
    /// The server numbers, place by place.
    numbers: Vec<u32>,
}

impl Handed<'_> {
    fn of<'a>(script: &Script, step: &'a Step) -> Option<Handed<'a>> {
        let (kind, length, id, joined) = match &step.call {
            Call::RoundOne { id, joined, .. } => (34, ONE_BYTES, *id, joined),
            Call::RoundTwo { id, joined } => (35, TWO_BYTES, *id, joined),
            _ => return None,
        };
        let messages = joined.chunks_exact(length);
        Some(Handed {
            servers: script.servers,
            own: step.server,
            kind,
            id,
            joined,
            length,
            numbers: messages.map(|message| message[5].into()).collect(),
        })
    }

    /// Whether each server is there exactly once.
    fn complete(&self) -> bool {
        let each: BTreeSet<u32> = self.numbers.iter().copied().collect();
        self.numbers.len() == each.len() && each.into_iter().eq(0..self.servers)
    }

    /// Whether the own message stands in the place of the own number.
    fn in_place(&self) -> bool {
        self.numbers[self.own as usize] == self.own
    }

    /// What was taken.
    fn taken(&self) -> &'static str {
        assert!(self.complete() && self.joined.len() == self.length * self.numbers.len());
        match self.numbers.is_sorted() {
            true => "taken in server order",
            false if self.in_place() => "taken in another order",
            false => "taken, own message elsewhere",
        }
    }

    /// Whether these are messages of round one without r and s.
    fn shortened(&self) -> bool {
        let long = self.joined.len() == TWO_BYTES * self.servers as usize;
        let mut messages = self.joined.chunks(TWO_BYTES);
        self.kind == 34 && long && messages.all(|m| m[0] == 34 && id_of(m) == self.id)
    }

    /// What was refused 16: how many have other challenges than the own ones, and which.
    fn unequal(&self) -> &'static str {
        assert!(self.complete() && self.kind == 34);
        let pairs: Vec<_> = self.joined.chunks(ONE_BYTES).map(challenges_of).collect();
        let mut numbers = self.numbers.iter();
        let own = numbers.position(|&number| number == self.own).unwrap();
        let (r, s) = pairs[own];
        let others = pairs.iter().filter(|&&pair| pair != (r, s));
        let others: Vec<&(u64, u64)> = others.collect();
        match others.len() {
            0 => panic!("no other challenges"),
            _ if others.iter().any(|pair| pair.0 == 0) => "another has r = 0",
            1 if others[0].0 == r => "one has another s",
            1 if others[0].1 == s => "one has another r",
            1 => "one has another r and s",
            _ => "several have others",
        }
    }

    /// What was refused 12. When nothing else is wrong, the own message is altered.
    fn fault(&self) -> &'static str {
        let servers = self.servers as usize;
        if self.joined.len() != self.length * servers {
            return match (self.joined.len() % self.length, self.numbers.len()) {
                _ if self.shortened() => "without r and s",
                (0, count) if count + 1 == servers => "one too few",
                (0, count) if count == servers + 1 => "one too many",
                _ => "another length",
            };
        }
        let sound = |m: &[u8]| {
            m[0] == self.kind && id_of(m) == self.id && field::elements(&m[6..]).is_some()
        };
        let past = self.numbers.iter().any(|&number| number >= self.servers);
        match self.joined.chunks(self.length).all(sound) {
            false => "kind, id or element",
            true if past => "past the last server",
            true if !self.complete() && self.numbers.contains(&self.own) => "a server twice",
            true if !self.complete() => "a server twice, own message missing",
            true if self.in_place() => "own message altered",
            true => "own message altered elsewhere",
        }
    }
}

/// What is met, and how often at least.
const MET: [(&str, u32); 18] = [
    ("taken in server order", 1000),
    ("taken in another order", 1000),
    ("taken, own message elsewhere", 5000),
    ("another has r = 0", 20),
    ("one has another r", 200),
    ("one has another s", 200),
    ("one has another r and s", 300),
    ("several have others", 500),
    ("without r and s", 30),
    ("one too few", 30),
    ("one too many", 30),
    ("another length", 30),
    ("kind, id or element", 300),
    ("past the last server", 30),
    ("a server twice", 30),
    ("a server twice, own message missing", 15),
    ("own message altered", 15),
    ("own message altered elsewhere", 50),
];

/// Most round calls that come in time are taken, most of them not in server order, and every
/// fault is met many times.
#[test]
fn orders_and_faults() {
    let mut met: BTreeMap<&str, u32> = BTreeMap::new();
    for seed in 0..400 {
        let script = Script::random(seed);
        for step in &script.steps {
            let Some(handed) = Handed::of(&script, step) else {
                continue;
            };
            let what = match step.answer {
                Answer::Refused(12) => handed.fault(),
                Answer::Refused(16) => handed.unequal(),
                Answer::Refused(_) => continue,
                _ => handed.taken(),
            };
            *met.entry(what).or_default() += 1;
        }
    }
    let taken = met.iter().filter(|(what, _)| what.starts_with("taken"));
    let taken: u32 = taken.map(|(_, count)| count).sum();
    assert!(5 * taken > 4 * met.values().sum::<u32>(), "{met:?}");
    for (what, least) in MET {
        assert!(met.remove(what) > Some(least), "{what}: {met:?}");
    }
    assert!(met.is_empty(), "{met:?}");
}
