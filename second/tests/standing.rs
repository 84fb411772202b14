//! Where a pool stands: counted off the answers of whole scripts, and refused of tables that break
//! a limit.

mod common;

use common::twins::Twins;
use second::gen::{Answer, Call, Script};
use second::{lent, standing, Standing, Verdict};

/// What an answer changes.
fn count(told: &mut Standing, call: &Call, answer: &Answer) {
    match (call, answer) {
        (_, Answer::Refused(_)) => (),
        (Call::Share { .. }, _) => told.waiting += 1,
        (Call::Close { .. }, _) => told.closed = true,
        (_, Answer::Verdict(Verdict::Rejected) | Answer::Dropped | Answer::Entered) => {
            told.waiting -= 1;
            told.decided += 1;
            told.entered += u32::from(*answer == Answer::Entered);
        }
        _ => (),
    }
}

/// The plain form tells S, the own number, N, Q and what its answers come to. Twins compare the
/// lent form with it after each of their calls.
#[test]
fn after_every_call() {
    for seed in 7300..7400 {
        let script = Script::random(seed);
        let tables = Twins::of_script(&script);
        let mut told: Vec<Standing> = (0..script.servers)
            .map(|own| Standing {
                servers: script.servers,
                own,
                limit: script.limit,
                least: script.least,
                closed: false,
                decided: 0,
                entered: 0,
                waiting: 0,
            })
            .collect();
        for (table, told) in tables.iter().zip(&told) {
            assert_eq!(standing(&table.plain), *told, "seed {seed}");
        }
        for step in &script.steps {
            let told = &mut told[step.server as usize];
            count(told, &step.call, &step.answer);
            assert_eq!(step.standing, *told, "seed {seed}");
        }
    }
}

/// The lent form refuses 11 what breaks a limit, and tells a closed table.
#[test]
fn of_lent_tables() {
    let mut table = Twins::open(3, 2, &[17], 9, 5).lent;
    let mut tell = |at: usize, byte: u8| {
        let old = std::mem::replace(&mut table.bytes[at], byte);
        let told = lent::standing(&mut table.bytes, &mut table.slots, &mut table.numbers);
        table.bytes[at] = old;
        told
    };
    let told = tell(1, 1).unwrap();
    assert!(told.closed && !tell(1, 0).unwrap().closed);
    assert_eq!((told.servers, told.own), (3, 2));
    assert_eq!((told.limit, told.least), (9, 5));
    for (at, byte) in [(0, 2), (1, 2), (2, 9), (3, 3), (4, 4), (8, 1), (10, 0)] {
        assert_eq!(tell(at, byte), Err(11), "byte {at} set to {byte}");
    }
    table.slots.pop();
    let told = lent::standing(&mut table.bytes, &mut table.slots, &mut table.numbers);
    assert_eq!(told, Err(11));
}
