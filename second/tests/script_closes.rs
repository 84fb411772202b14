//! The closes of scripts, and the least counts that they are opened with.

use std::collections::BTreeMap;

use second::gen::{Answer, Call, Case, CaseAnswer, Script, Server};
use second::open;

/// How often something was met.
type Met = BTreeMap<&'static str, u32>;

fn note(met: &mut Met, what: &'static str, happens: bool) {
    *met.entry(what).or_default() += u32::from(happens);
}

/// Plays a script; notes what becomes of each table.
fn play(met: &mut Met, script: &Script) {
    let Script {
        servers,
        ref sheet,
        limit,
        least,
        ..
    } = *script;
    let open = |own| open(servers, own, sheet, limit, least).unwrap();
    let mut tables: Vec<_> = (0..servers).map(open).collect();
    let mut answers: Vec<Vec<Answer>> = vec![Vec::new(); tables.len()];
    for step in &script.steps {
        let table = &mut tables[step.server as usize];
        assert_eq!(table.call(&step.call), step.answer);
        let few = table.entered() < least;
        let full = few && table.decided().len() == limit as usize;
        // What a pool that can never close still answers, besides the closes of any.
        if matches!(step.call, Call::Close { .. }) || (full && step.answer == FULL) {
            answers[step.server as usize].push(step.answer.clone());
        }
        note(met, "15 with N decided", full && step.answer == FEW);
    }
    for (table, answers) in tables.iter().zip(&answers) {
        let (closed, tried) = (table.closed(), answers.contains(&FEW));
        note(met, "tables", true);
        note(met, "closed", closed);
        note(met, "15, then closed", closed && tried);
        note(
            met,
            "15 and 13, never closed",
            tried && answers.contains(&FULL),
        );
    }
}

const FEW: Answer = Answer::Refused(15);
const FULL: Answer = Answer::Refused(13);

/// Notes the Q of a script, and the openings that are refused.
fn openings(met: &mut Met, script: &Script) {
    let Script { limit, least, .. } = *script;
    assert!((1..=limit).contains(&least));
    note(met, "Q = 1", least == 1);
    note(met, "Q = N above 1", least == limit && least > 1);
    note(met, "Q between", least > 1 && least < limit);
    for exchange in &script.openings {
        assert_eq!(exchange.answer, CaseAnswer::Refused(2));
        let Case::Open { least, .. } = exchange.case else {
            panic!("{exchange:?}");
        };
        note(met, "opened with 0", least == 0);
        note(met, "opened with N + 1", least == limit + 1);
        note(met, "opened with more", least > limit + 1);
    }
}

fn enough(met: &Met, least: &[(&str, u32)]) {
    for (what, least) in least {
        assert!(met.get(what) > Some(least), "{what}: {met:?}");
    }
}

/// Most pools close; some are refused 15 first, some never close.
#[test]
fn orderly_closes() {
    let mut met = Met::new();
    for seed in 0..300 {
        let script = Script::orderly(seed);
        openings(&mut met, &script);
        play(&mut met, &script);
        note(&mut met, "scripts closed", script.truth.is_some());
    }
    enough(&met, &[("scripts closed", 225), ("closed", 1100)]);
    enough(
        &met,
        &[("15, then closed", 100), ("15 with N decided", 100)],
    );
    enough(&met, &[("15 and 13, never closed", 50)]);
    enough(
        &met,
        &[("Q = 1", 150), ("Q = N above 1", 5), ("Q between", 50)],
    );
    enough(&met, &[("opened with 0", 50), ("opened with N + 1", 50)]);
    enough(&met, &[("opened with more", 50)]);
}

#[test]
fn wild_closes() {
    let mut met = Met::new();
    for seed in 0..300 {
        let script = Script::wild(seed);
        openings(&mut met, &script);
        play(&mut met, &script);
    }
    assert!(2 * met["closed"] > met["tables"], "{met:?}");
    enough(
        &met,
        &[("15, then closed", 100), ("15 with N decided", 100)],
    );
    enough(&met, &[("15 and 13, never closed", 50)]);
}
