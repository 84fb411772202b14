//! Random whole pools.

mod common;

use std::collections::{BTreeMap, BTreeSet};

use common::ledger::Ledger;
use common::*;
use second::field;
use second::gen::{self, added_up, lets_in, Answer, CaseAnswer, Origin, Rng, Script};
use second::{Circuit, Joined, Sheet};

/// Checks one script; notes the refusals it met and the verdicts by origin.
fn check(script: &Script, met: &mut BTreeSet<u32>, verdicts: &mut BTreeMap<String, [u32; 2]>) {
    let sheet = Sheet::read(&script.sheet).unwrap();
    let ledgers = Ledger::all(script);
    for (server, ledger) in ledgers.iter().enumerate() {
        assert!(ledger.decided() + ledger.waiting.len() <= script.limit as usize);
        assert!(ledger.most <= 8);
        if let Some(message) = &ledger.closing {
            assert_eq!(*message, ledger.expected_closing(&sheet, server));
        }
    }
    for step in &script.steps {
        if let Answer::Refused(number) = step.answer {
            met.insert(number);
        }
    }
    for exchange in script.openings.iter().chain(&script.joins) {
        if let CaseAnswer::Refused(number) = exchange.answer {
            met.insert(number);
        }
    }
    if let Some(truth) = &script.truth {
        check_truth(script, &sheet, &ledgers, truth);
        check_verdicts(script, &sheet, &ledgers, verdicts);
    }
}

/// Under demand 3's conditions the entered ids are the same at each server and dropped at none,
/// and joining gives their number and the sums of the added-up published entries.
fn check_truth(script: &Script, sheet: &Sheet, ledgers: &[Ledger], truth: &Joined) {
    let set = |ids: &[u32]| ids.iter().copied().collect::<BTreeSet<u32>>();
    let entered = set(&ledgers[0].entered);
    for ledger in ledgers {
        assert_eq!(set(&ledger.entered), entered);
        assert!(entered.is_disjoint(&set(&ledger.dropped)));
        assert!(entered.is_subset(&ledger.accepted));
    }
    assert_eq!(script.joins[0].answer, CaseAnswer::Joined(truth.clone()));
    let mut totals = vec![0; sheet.published()];
    for id in &ledgers[0].entered {
        for (total, entry) in totals.iter_mut().zip(sheet.published_entries()) {
            *total = field::sum(ledgers.iter().map(|l| l.taken[id].0[entry]).chain([*total]));
        }
    }
    let totals: Vec<u32> = totals.iter().map(|&total| total as u32).collect();
    assert_eq!(truth.count as usize, entered.len());
    assert_eq!(truth.totals, words(&totals));
}

/// A return on which a server has a verdict has one pair, and is accepted exactly when the pair
/// lets it in.
fn check_verdicts(
    script: &Script,
    sheet: &Sheet,
    ledgers: &[Ledger],
    verdicts: &mut BTreeMap<String, [u32; 2]>,
) {
    for given in &script.returns {
        let accepted = ledgers.iter().any(|l| l.accepted.contains(&given.id));
        let rejected = ledgers.iter().any(|l| l.rejected.contains(&given.id));
        assert!(!accepted || !rejected, "one verdict at all servers");
        if !accepted && !rejected {
            continue;
        }
        let (_, r, s) = ledgers[0].taken[&given.id];
        let mut pairs = ledgers.iter().map(|l| &l.taken[&given.id]);
        assert!(pairs.all(|taken| (taken.1, taken.2) == (r, s)));
        let whole = added_up(sheet, &given.shares).unwrap();
        assert_eq!(lets_in(sheet, &whole, r, s), Some(accepted));
        let valid = Circuit::of(sheet).is_valid(&whole[..sheet.entries()]);
        if given.origin == Origin::Honest {
            assert!(accepted && valid == Some(true));
        }
        if matches!(given.origin, Origin::Lucky | Origin::LuckyTriple) {
            assert!(accepted, "{:?} is bent for its pair", given.origin);
        }
        let row = verdicts.entry(format!("{:?}", given.origin)).or_default();
        row[usize::from(accepted)] += 1;
    }
}

#[test]
fn orderly_pools() {
    let mut met = BTreeSet::new();
    let mut verdicts = BTreeMap::new();
    let mut servers = BTreeSet::new();
    let (mut full, mut accepted) = (0, 0);
    let mut waits = BTreeSet::new();
    for seed in 0..250 {
        let script = Script::orderly(seed);
        servers.insert(script.servers);
        check(&script, &mut met, &mut verdicts);
        let ledgers = Ledger::all(&script);
        full += usize::from(ledgers.iter().any(|ledger| ledger.most == 8));
        for ledger in &ledgers {
            let dropped = ledger.dropped.iter();
            accepted += dropped.filter(|id| ledger.accepted.contains(id)).count();
            waits.insert(ledger.most_accepted);
        }
        // All servers close, or none does for lack of Q.
        let closed = script.truth.is_some();
        assert!(ledgers.iter().all(|l| l.closing.is_some() == closed));
        assert!(closed || ledgers.iter().all(|ledger| ledger.few));
    }
    assert_eq!(servers, (2..=8).collect());
    assert!(full > 25, "{full} pools in which eight waited");
    assert!(accepted > 100, "{accepted} accepted returns were dropped");
    assert!((0..=5).all(|count| waits.contains(&count)), "{waits:?}");
    assert!((7..=16).all(|number| met.contains(&number)), "{met:?}");
    assert_eq!(verdicts.len(), 7, "{verdicts:?}");
    assert_eq!(verdicts["Honest"][0], 0);
    assert!(verdicts["Honest"][1] > 100);
    for origin in ["Altered", "FalseEntries", "Forged", "FalseTriple"] {
        assert!(verdicts[origin][0] > 5, "{verdicts:?}");
    }
}

#[test]
fn wild_lists() {
    let mut met = BTreeSet::new();
    let mut entered = 0;
    let mut rejected = 0;
    let mut dropped = 0;
    let mut full = 0;
    for seed in 0..200 {
        let script = Script::wild(seed);
        assert!(script.truth.is_none());
        check(&script, &mut met, &mut BTreeMap::new());
        for ledger in Ledger::all(&script) {
            entered += ledger.entered.len();
            rejected += ledger.rejected.len();
            dropped += ledger.dropped.len();
            full += usize::from(ledger.most == 8);
        }
    }
    assert!((7..=16).all(|number| met.contains(&number)), "{met:?}");
    assert!(entered > 200 && rejected > 200 && dropped > 200);
    assert!(full > 25, "{full} tables at which eight waited");
}

#[test]
fn every_refusal_is_reached() {
    let mut met = BTreeSet::new();
    let mut good = 0;
    let mut rng = Rng::new(5);
    for _ in 0..3000 {
        match gen::Case::random(&mut rng).plain() {
            CaseAnswer::Refused(number) => {
                met.insert(number);
            }
            CaseAnswer::Text(text) => {
                if let Some(number) = text.strip_prefix("refused ") {
                    met.insert(number.trim_end().parse().unwrap());
                } else {
                    good += 1;
                }
            }
            _ => good += 1,
        }
    }
    assert!(good > 1000, "{good} good cases");
    for seed in 0..60 {
        check(&Script::random(seed), &mut met, &mut BTreeMap::new());
    }
    assert_eq!(met, (1..=19).collect());
}

#[test]
fn scripts_repeat() {
    for seed in [0, 1, 2, 77] {
        assert_eq!(Script::random(seed), Script::random(seed));
        let text = Script::random(seed).to_string();
        assert!(text.starts_with("open "));
        assert_eq!(text, Script::random(seed).to_string());
    }
}
