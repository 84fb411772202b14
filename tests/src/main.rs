//! The library behind include/pool.h against the second program. See README.md beside the package.

#[path = "../../include/pool.rs"]
mod c;
mod calls;
mod challenges;
mod circuits;
mod counts;
mod damage;
mod decided;
mod entering;
mod examples;
mod faults;
mod fixture;
mod guard;
mod hall;
mod layout;
mod least;
mod libcrypto;
mod limits;
mod lines;
mod lists;
mod mixed;
mod named;
mod orders;
mod pages;
mod points;
mod pools;
mod records;
mod recount;
mod reference;
mod scripts;
mod seeds;
mod shelf;
mod sizes;
mod stack;
mod state;
mod stopped;
mod suite;
mod tables;
mod tally;
mod tell;
mod tops;
mod waiting;

use std::env;
use std::process::ExitCode;
use std::time::{Duration, Instant};

use calls::Function;
use named::NAMED;
use suite::{Suite, Verdict};
use tally::Tally;

/// Seeds of the fixed runs: so many blocks of so many seeds each.
const SCRIPT_BLOCKS: (u64, u64) = (20, 60);
const CASE_BLOCKS: (u64, u64) = (5, 60);
const POOL_BLOCKS: (u64, u64) = (3, 30);
const MIXED_BLOCKS: (u64, u64) = (6, 40);

/// The refusals of each function, by the header.
const REFUSALS: [(Function, &[u32]); 18] = [
    (Function::Sizes, &[0, 1, 2]),
    (Function::Circuit, &[0, 1, 2, 14]),
    (Function::ReadCircuit, &[0, 1, 2, 3]),
    (Function::EveryReturn, &[0, 1, 2, 14, 17]),
    (Function::Make, &[0, 1, 2, 5, 6, 14]),
    (Function::MakeSeeded, &[0, 1, 2, 5, 6, 14]),
    (Function::Open, &[0, 1, 2, 4, 14]),
    (Function::Share, &[0, 7, 8, 9, 10, 11, 13, 14]),
    (Function::RoundOne, &[0, 11, 12, 14, 16]),
    (Function::RoundTwo, &[0, 11, 12]),
    (Function::Enter, &[0, 11]),
    (Function::Drop, &[0, 11]),
    (Function::Close, &[0, 11, 14, 15]),
    (Function::State, &[0, 11]),
    (Function::Join, &[0, 1, 2, 4, 12, 14]),
    (Function::Line, &[0, 1, 2, 4, 12, 18]),
    (Function::Shelve, &[0, 2, 14, 19]),
    (Function::Unshelve, &[0, 2, 14, 19]),
];

/// Whole runs in four threads at once.
fn threads(suite: &mut Suite) -> Verdict {
    let run = |first: u64| {
        let mut own = Suite::new();
        let verdict = (first..first + 6).try_for_each(|seed| scripts::script(&mut own, seed));
        (own, verdict)
    };
    let ends = std::thread::scope(|scope| {
        let started: Vec<_> = (0..4).map(|number| scope.spawn(move || run(3000 + 10 * number))).collect();
        started.into_iter().map(|thread| thread.join().expect("a test does not panic")).collect::<Vec<_>>()
    });
    for (own, verdict) in ends {
        suite.add(own);
        verdict?;
    }
    Ok(())
}

/// Every function gave each of its answers, and no other.
fn coverage(suite: &Suite) -> Verdict {
    for (function, numbers) in REFUSALS {
        let seen: Vec<u32> = suite.seen.keys().filter(|key| key.0 == function).map(|key| key.1).collect();
        if seen != numbers {
            return Err(format!("{function:?} gave the answers {seen:?}\nmust be {numbers:?}"));
        }
    }
    Ok(())
}

/// The program recount.
fn recounts(tally: &mut Tally) {
    let Some(program) = recount::program() else {
        tally.note("recount", Err("the program is not built".to_string()));
        return;
    };
    tally.note("recount: the example", recount::example(&program));
    tally.note("recount: columns with a top", recount::tops(&program));
    tally.note("recount: columns of points", recount::points(&program));
    tally.note("recount: input in pieces", recount::pieces(&program));
    tally.note("recount: limits", recount::limits(&program));
    tally.note("recount: random inputs", recount::random(&program, 0));
}

/// The named tests whose name holds a text.
fn named(tally: &mut Tally, suite: &mut Suite, text: &str) {
    for (name, run) in NAMED.iter().filter(|(name, _)| name.contains(text)) {
        let verdict = run(suite);
        tally.note(name, verdict);
    }
    println!("examples, faults, limits, tables: {} calls", suite.calls);
}

/// The fixed list.
fn fixed(tally: &mut Tally) {
    let mut suite = Suite::new();
    named(tally, &mut suite, "");
    let (before, met, taken) = (suite.calls, scripts::met(&suite), suite.seeded);
    tally.blocks(&mut suite, "whole runs", SCRIPT_BLOCKS, scripts::script);
    tally.note("whole runs: entries, challenges that differ, lines", scripts::often(&suite, met));
    tally.note("whole runs: shares from seeds", scripts::seeded(&suite, taken));
    tally.blocks(&mut suite, "single calls", CASE_BLOCKS, scripts::cases);
    tally.blocks(&mut suite, "pools made by the library", POOL_BLOCKS, pools::pool);
    tally.blocks(&mut suite, "mixed returns", MIXED_BLOCKS, mixed::mix);
    tally.note("mixed returns: eight waiting, some for entry", mixed::often(&suite));
    let verdict = threads(&mut suite);
    tally.note("whole runs in threads", verdict);
    let plans = [SCRIPT_BLOCKS, CASE_BLOCKS, POOL_BLOCKS, MIXED_BLOCKS];
    let [runs, cases, pools, mixes] = plans.map(|(blocks, size)| blocks * size);
    let calls = suite.calls - before;
    println!("{runs} whole runs, {cases} lists of single calls, {pools} pools, {mixes} mixes: {calls} calls");
    tally.note("every answer of every function", coverage(&suite));
    recounts(tally);
    println!("{} calls in all", suite.calls);
}

/// All random runs of one seed.
fn seed(suite: &mut Suite, seed: u64) -> Verdict {
    scripts::script(suite, seed)?;
    scripts::cases(suite, seed)?;
    pools::pool(suite, seed)?;
    mixed::mix(suite, seed)
}

/// Seeds from a million on until the time is up; stops at the first failure.
fn long(tally: &mut Tally, seconds: u64) {
    let (start, mut suite, mut number) = (Instant::now(), Suite::new(), 1_000_000);
    while start.elapsed() < Duration::from_secs(seconds) && tally.failed() == 0 {
        let verdict = seed(&mut suite, number);
        tally.note(&format!("seed {number}"), verdict);
        number += 1;
    }
    println!("seeds 1000000 to {}: {} calls", number - 1, suite.calls);
}

fn main() -> ExitCode {
    tally::report_signals();
    let arguments: Vec<String> = env::args().skip(1).collect();
    let number = arguments.get(1).and_then(|text| text.parse::<u64>().ok());
    let mut tally = Tally::new();
    match (arguments.first().map(String::as_str), number) {
        (None, _) => fixed(&mut tally),
        (Some("--only"), _) if arguments.len() == 2 => named(&mut tally, &mut Suite::new(), &arguments[1]),
        (Some("--long"), Some(seconds)) => long(&mut tally, seconds),
        (Some("--seed"), Some(number)) => {
            let verdict = seed(&mut Suite::new(), number);
            tally.note(&format!("seed {number}"), verdict);
        }
        _ => println!("usage: tests/run [--only TEXT | --seed NUMBER | --long SECONDS]"),
    }
    tally.end()
}
