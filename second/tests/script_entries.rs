//! The entries of scripts: taken, refused at every other time, and late.

use std::collections::{BTreeMap, BTreeSet};

use second::gen::{Answer, Call, Script, Server, Step};
use second::{open, Stage, Table, Verdict};

/// How often something was met.
type Met = BTreeMap<&'static str, u32>;

/// What became of an id at a server.
#[derive(Default)]
struct Ends {
    rejected: BTreeSet<(u32, u32)>,
    entered: BTreeSet<(u32, u32)>,
    dropped: BTreeSet<(u32, u32)>,
}

const STAGE: Answer = Answer::Refused(11);

impl Ends {
    /// When an entry was tried.
    fn entry(&self, table: &Table, server: u32, id: u32) -> &'static str {
        let key = (server, id);
        match table.stage(id) {
            Some(Stage::AwaitsEntry) => "entered",
            Some(Stage::AwaitsRoundOne) => "entry in the first wait",
            Some(Stage::AwaitsRoundTwo) => "entry in the second wait",
            None if table.closed() => "entry in a closed table",
            None if self.entered.contains(&key) => "entered twice",
            None if self.rejected.contains(&key) => "entry of a rejected id",
            None if self.dropped.contains(&key) => "entry of a dropped id",
            None => "entry of an unknown id",
        }
    }

    fn note(&mut self, step: &Step) {
        match (&step.call, &step.answer) {
            (Call::RoundTwo { id, .. }, Answer::Verdict(Verdict::Rejected)) => {
                self.rejected.insert((step.server, *id));
            }
            (Call::Enter { id }, Answer::Entered) => {
                self.entered.insert((step.server, *id));
            }
            (Call::Drop { id }, Answer::Dropped) => {
                self.dropped.insert((step.server, *id));
            }
            _ => {}
        }
    }
}

/// What a step shows at a table where some await entry.
fn met(ends: &Ends, table: &Table, step: &Step) -> Option<&'static str> {
    let waiting = table.waiting();
    let accepted = |id: u32| table.stage(id) == Some(Stage::AwaitsEntry);
    let some = waiting.iter().any(|(id, _)| accepted(*id));
    Some(match (&step.call, &step.answer) {
        (Call::Enter { id }, answer) => {
            let what = ends.entry(table, step.server, *id);
            assert_eq!(*answer == Answer::Entered, what == "entered");
            what
        }
        (Call::Drop { id }, Answer::Dropped) if accepted(*id) => "accepted, then dropped",
        (Call::Close { .. }, &STAGE) if some => "close while one awaits entry",
        (Call::Share { .. }, &STAGE) if some => "a ninth share",
        (Call::Share { .. }, Answer::Refused(13)) if some => "13",
        (Call::Share { message, .. }, Answer::Refused(10)) => {
            let id = u32::from_le_bytes(message[1..5].try_into().unwrap());
            return accepted(id).then_some("10");
        }
        (Call::RoundTwo { id, .. }, &STAGE) if accepted(*id) => "another round two",
        _ => return None,
    })
}

/// Plays a script; notes what is met.
fn play(all: &mut Met, script: &Script) {
    let Script {
        servers,
        ref sheet,
        limit,
        least,
        ..
    } = *script;
    let open = |own| open(servers, own, sheet, limit, least).unwrap();
    let mut tables: Vec<Table> = (0..servers).map(open).collect();
    let mut ends = Ends::default();
    let mut first = BTreeMap::new();
    for (at, step) in script.steps.iter().enumerate() {
        let table = &mut tables[step.server as usize];
        if let Some(what) = met(&ends, table, step) {
            *all.entry(what).or_default() += 1;
        }
        assert_eq!(table.call(&step.call), step.answer);
        ends.note(step);
        if let (Call::Enter { id }, Answer::Entered) = (&step.call, &step.answer) {
            // So many calls after the first server that entered it.
            let late = at - *first.entry(*id).or_insert(at) > 100;
            *all.entry("entered late").or_default() += u32::from(late);
        }
    }
}

/// What is met in orderly and in wild scripts, and how often at least.
const LEAST: [(&str, u32); 15] = [
    ("entered", 4000),
    ("entered late", 100),
    ("entered twice", 100),
    ("entry in the first wait", 100),
    ("entry in the second wait", 100),
    ("entry of a rejected id", 50),
    ("entry of a dropped id", 100),
    ("entry of an unknown id", 200),
    ("entry in a closed table", 30),
    ("accepted, then dropped", 100),
    ("close while one awaits entry", 50),
    ("a ninth share", 50),
    ("13", 100),
    ("10", 50),
    ("another round two", 30),
];

#[test]
fn entries_at_all_times() {
    let scripts: [fn(u64) -> Script; 2] = [Script::orderly, Script::wild];
    for of in scripts {
        let mut all = Met::new();
        for seed in 0..330 {
            play(&mut all, &of(seed));
        }
        let few = LEAST
            .iter()
            .filter(|(what, least)| all.get(what) < Some(least));
        let few: Vec<_> = few.collect();
        assert!(few.is_empty(), "{few:?} of {all:?}");
    }
}
