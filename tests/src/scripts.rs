//! Random runs: the second program's scripts of calls at S servers, and its single calls.

use second::gen::Call as Step;
use second::gen::{Answer, Case, CaseAnswer, Exchange, Fit, Rng, Script, Seeded, Shelf};
use second::refusal;
use second::Standing;
use second::Verdict::{Accepted, Rejected};

use crate::calls::{plain, Call, Done, Function, Outcome};
use crate::damage::damaged;
use crate::layout::{run_length, Parts};
use crate::reference;
use crate::suite::{Suite, Verdict};

/// Lengths that are enough for everything, in place of a room without end.
const MESSAGE_ROOM: usize = 1_100;
const CIRCUIT_ROOM: usize = 7_200;
const LISTS_ROOM: usize = 196_700;
const MAKE_ROOM: usize = 25_000;
const SEEDED_ROOM: usize = 3_400;
const SHELF_ROOM: usize = 262_200;

/// A script's call on a table.
fn step_call(step: &Step, table: &Parts) -> Call {
    let call = match step.clone() {
        Step::Share { message, r, s, room } => Call { message, r, s, room, ..Call::of(Function::Share) },
        Step::RoundOne { id, joined, room } => Call { id, message: joined, room, ..Call::of(Function::RoundOne) },
        Step::RoundTwo { id, joined } => Call { id, message: joined, ..Call::of(Function::RoundTwo) },
        Step::Enter { id } => Call { id, ..Call::of(Function::Enter) },
        Step::Drop { id } => Call { id, ..Call::of(Function::Drop) },
        Step::Close { room } => Call { room, ..Call::of(Function::Close) },
    };
    Call { table: table.clone(), room: call.room.min(MESSAGE_ROOM), ..call }
}

/// Whether an outcome is the script's answer, but for the table, of which the script does not tell.
fn same(outcome: &Outcome, answer: &Answer) -> bool {
    match (outcome, answer) {
        (Ok(done), Answer::Message(message)) => done.bytes == *message,
        (Ok(done), Answer::Verdict(Accepted)) => done.numbers == [1],
        (Ok(done), Answer::Verdict(Rejected)) => done.numbers == [0],
        (Ok(_), Answer::Entered | Answer::Dropped) => true,
        (Err(number), Answer::Refused(expected)) => number == expected,
        _ => false,
    }
}

/// The tables of a script. The bytes and the numbers stand each at the start of a slice that is sometimes longer.
fn open_tables(suite: &mut Suite, rng: &mut Rng, script: &Script) -> Result<Vec<Parts>, String> {
    let mut tables = Vec::new();
    for own in 0..script.servers {
        let open = Call::open_table(script.servers, own, &script.sheet, script.limit);
        let mut call = Call { least: script.least, ..open };
        let needed = suite.check(&call)?.map_or(0, |done| done.table.bytes.len());
        call.room = needed;
        call.elements = run_length(&script.sheet);
        let mut table = suite.check(&call)?.map_or(Parts::default(), |done| done.table);
        let (bytes, numbers) = (rng.pick([0, 0, 1, 40]), rng.pick([0, 0, 1, 11]));
        table.bytes.extend(rng.bytes(bytes));
        table.elements.extend((0..numbers).map(|_| rng.next_u64() as u32));
        tables.push(table);
    }
    Ok(tables)
}

/// A table tells where the second program's stands.
fn stands(suite: &mut Suite, table: &Parts, expected: &Standing) -> Verdict {
    let call = Call::state_of(table);
    match suite.check(&call)? {
        Ok(done) if done.numbers == reference::standing(expected) => Ok(()),
        _ => Err(suite.failure(&call, &format!("as the layout says\nmust be {expected:?}"))),
    }
}

/// One script: every answer is that of the second program, and every table that of the layout; so is the state that it
/// tells after each call. Now and then a call is tried on a damaged copy of the table first.
pub fn script(suite: &mut Suite, seed: u64) -> Verdict {
    let mut rng = suite.seed(seed);
    let script = Script::random(seed);
    for exchange in &script.openings {
        exchanged(suite, exchange)?;
    }
    let mut tables = open_tables(suite, &mut rng, &script)?;
    for step in &script.steps {
        let table = &mut tables[step.server as usize];
        let call = step_call(&step.call, table);
        if rng.chance(15) {
            let table = damaged(&mut rng, table);
            suite.agrees(&Call::state_of(&table))?;
            suite.agrees(&Call { table, ..call.clone() })?;
        }
        let outcome = suite.check(&call)?;
        if !same(&outcome, &step.answer) {
            return Err(suite.failure(&call, &format!("as the layout says\nmust be {}", step.answer)));
        }
        if let Ok(done) = outcome {
            *table = done.table;
        }
        stands(suite, table, &step.standing)?;
    }
    for exchange in &script.joins {
        exchanged(suite, exchange)?;
    }
    truth(suite, &script)
}

/// What whole runs must meet, and how often at least: round ones refused 16, entries, entries refused 11, and lines.
const OFTEN: [(Function, u32, u64); 4] = [
    (Function::RoundOne, refusal::UNEQUAL, 1000),
    (Function::Enter, 0, 5000),
    (Function::Enter, refusal::STAGE, 1000),
    (Function::Line, 0, 60),
];

/// How often each was met so far.
pub fn met(suite: &Suite) -> [u64; 4] {
    OFTEN.map(|(function, number, _)| suite.seen.get(&(function, number)).copied().unwrap_or(0))
}

/// Each was met often enough since then.
pub fn often(suite: &Suite, before: [u64; 4]) -> Verdict {
    for ((function, number, least), (now, before)) in OFTEN.into_iter().zip(met(suite).into_iter().zip(before)) {
        if now - before < least {
            return Err(format!("{function:?} gave the answer {number} {} times\nmust be {least}", now - before));
        }
    }
    Ok(())
}

/// Shares were often taken from seeds since so many.
pub fn seeded(suite: &Suite, before: u64) -> Verdict {
    match suite.seeded - before {
        0..10_000 => Err(format!("{} shares were taken from seeds\nmust be 10000", suite.seeded - before)),
        _ => Ok(()),
    }
}

/// Where an orderly script's pool reaches Q, the closing messages join to the sums that its returns add up to.
fn truth(suite: &mut Suite, script: &Script) -> Verdict {
    let (Some(truth), Some(first)) = (&script.truth, script.joins.first()) else {
        return Ok(());
    };
    match case_call(&first.case) {
        Some(call) => suite.gives(&call, plain(vec![truth.count.into()], truth.totals.clone())),
        None => Ok(()),
    }
}

/// A call at the shelf.
fn shelf_call(function: Function, shelf: Shelf) -> Call {
    let Shelf { messages, width, run, room } = shelf;
    Call { messages, width, message: run, room: room.min(SHELF_ROOM), ..Call::of(function) }
}

/// Making from seeds.
fn seeded_call(seeded: Seeded) -> Call {
    let Seeded { sheet, servers, id, values, random, seeds, room } = seeded;
    let room = room.min(SEEDED_ROOM);
    Call { sheet, servers, id, values, random, seeds, room, ..Call::of(Function::MakeSeeded) }
}

/// The line of a column.
pub fn line_call(fit: Fit) -> Call {
    let Fit { servers, sheet, limit, joined, column } = fit;
    Call { servers, sheet, returns: limit, message: joined, column, ..Call::of(Function::Line) }
}

/// A single call of the second program's; `None` for recount.
fn case_call(case: &Case) -> Option<Call> {
    Some(match case.clone() {
        Case::Sizes { sheet } => Call { sheet, ..Call::of(Function::Sizes) },
        Case::Circuit { sheet, room } => Call { sheet, room: room.min(CIRCUIT_ROOM), ..Call::of(Function::Circuit) },
        Case::ReadCircuit { entries, bytes } => Call { entries, message: bytes, ..Call::of(Function::ReadCircuit) },
        Case::EveryReturn { sheet, room } => {
            Call { sheet, room: room.min(LISTS_ROOM), ..Call::of(Function::EveryReturn) }
        }
        Case::Make { sheet, servers, id, values, random, room } => {
            let room = room.min(MAKE_ROOM);
            Call { sheet, servers, id, values, random, room, ..Call::of(Function::Make) }
        }
        Case::MakeSeeded(x) => seeded_call(x),
        Case::Open { servers, own, sheet, limit, least } => {
            Call { least, ..Call::open_table(servers, own, &sheet, limit) }
        }
        Case::Join { servers, sheet, limit, joined, room } => {
            let room = room.min(MESSAGE_ROOM);
            Call { servers, sheet, returns: limit, message: joined, room, ..Call::of(Function::Join) }
        }
        Case::Line(fit) => line_call(fit),
        Case::Recount { .. } => return None,
        Case::Shelve(shelf) => shelf_call(Function::Shelve, shelf),
        Case::Unshelve(shelf) => shelf_call(Function::Unshelve, shelf),
    })
}

/// Whether an outcome is the answer of a single call.
fn same_case(outcome: &Outcome, answer: &CaseAnswer) -> bool {
    let counts = |a: usize, b: usize, c: usize| vec![a as u64, b as u64, c as u64];
    match (outcome, answer) {
        (Ok(Done { numbers, .. }), CaseAnswer::Sizes(told)) => *numbers == reference::sizes(told),
        (Ok(Done { bytes, .. }), CaseAnswer::Bytes(expected)) => bytes == expected,
        (Ok(Done { numbers, .. }), CaseAnswer::Counts { wires, multiplications, tests }) => {
            *numbers == counts(*wires, *multiplications, *tests)
        }
        (Ok(Done { numbers, bytes, .. }), CaseAnswer::Listing(listing)) => {
            *numbers == [u64::from(listing.lists)] && *bytes == listing.values
        }
        (Ok(_), CaseAnswer::Opened) => true,
        (Ok(Done { numbers, bytes, .. }), CaseAnswer::Joined(joined)) => {
            *numbers == [u64::from(joined.count)] && *bytes == joined.totals
        }
        (Ok(Done { signed, .. }), CaseAnswer::Line(line)) => *signed == [line.determinant, line.slope, line.intercept],
        (Err(number), CaseAnswer::Refused(expected)) => number == expected,
        _ => false,
    }
}

/// A single call has the answer of the plain form of the second program.
fn exchanged(suite: &mut Suite, exchange: &Exchange) -> Verdict {
    let Some(call) = case_call(&exchange.case) else {
        return Ok(());
    };
    let outcome = suite.check(&call)?;
    if same_case(&outcome, &exchange.answer) {
        return Ok(());
    }
    Err(suite.failure(&call, &format!("as the fast form says\nmust be {:?}", exchange.answer)))
}

/// Fifty single calls of a seed, and what the sheet of each comes to.
pub fn cases(suite: &mut Suite, seed: u64) -> Verdict {
    let mut rng = suite.seed(seed);
    for _ in 0..50 {
        let case = match rng.below(15) {
            0 => Case::random_sizes(&mut rng),
            1 | 2 => Case::random_circuit(&mut rng),
            3 | 4 => Case::random_read_circuit(&mut rng),
            5 => Case::random_make(&mut rng),
            6 | 7 => Case::random_open(&mut rng),
            8 => Case::random_shelf(&mut rng),
            9 => Case::random_every_return(&mut rng),
            10 | 11 => Case::random_line(&mut rng),
            12 => Case::random_make_seeded(&mut rng),
            _ => Case::random_join(&mut rng),
        };
        let exchange = Exchange::of(case);
        exchanged(suite, &exchange)?;
        if let Some(Call { sheet, function, .. }) = case_call(&exchange.case) {
            if !matches!(function, Function::ReadCircuit | Function::Shelve | Function::Unshelve) {
                suite.agrees(&Call { sheet, ..Call::of(Function::Sizes) })?;
            }
        }
    }
    Ok(())
}
