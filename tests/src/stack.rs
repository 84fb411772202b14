//! The stack that a call uses: the memory below is marked before the call and looked over after it.

use second::gen;

use crate::calls::{Call, Function};
use crate::fixture::{Fixture, NEXT};
use crate::seeds::seed_message;
use crate::suite::{Suite, Verdict};
use crate::tops::{largest_sheet, longest_sheet, top_column};

const MARK: u8 = 0x5B;
/// So much below is marked, from a little below the function that marks it.
const DEPTH: usize = 256 * 1024;
const NEAR: usize = 2 * 1024;
/// What the header allows.
const ALLOWED: usize = 64 * 1024;

/// Marks the memory below; gives the place from which it counts.
#[inline(never)]
fn mark() -> usize {
    let here = 0u8;
    let top = std::hint::black_box(&raw const here) as usize;
    for at in top - DEPTH..top - NEAR {
        unsafe { (at as *mut u8).write_volatile(MARK) };
    }
    top
}

/// How far below a place the memory is no longer marked.
#[inline(never)]
fn depth(top: usize) -> usize {
    let marked = |at: &usize| unsafe { (*at as *const u8).read_volatile() == MARK };
    DEPTH - (top - DEPTH..top - NEAR).take_while(marked).count()
}

/// The stack that a call uses together with what carries it out.
fn used(suite: &mut Suite, call: &Call) -> Result<usize, String> {
    let expected = suite.reference(call)?;
    let top = mark();
    suite.gives(call, expected)?;
    Ok(depth(top))
}

/// Joining, and the lines of the first column and of the last one of points: four yes/no stand after it.
fn on_totals(sheet: Vec<u8>, read: &second::Sheet) -> [Call; 3] {
    let totals = vec![1; read.closing_length() - 6];
    let message = (0..8).flat_map(|k| [&[36, k, 0, 0, 0, 0][..], &totals].concat()).collect();
    let join = Call { sheet, servers: 8, returns: 2, message, room: 1_024, ..Call::of(Function::Join) };
    let line = |column: usize| Call { function: Function::Line, column: column as u32, ..join.clone() };
    [line(1), line(read.columns().len() - 4), join]
}

/// Making from seeds at eight servers, and a share from a seed at server 7.
fn from_seeds(sheet: &[u8], read: &second::Sheet, fixture: &Fixture) -> [Call; 2] {
    let (values, random, seeds) = (vec![0; 4 * read.columns().len()], vec![1; 16], vec![7; 7 * 32]);
    let make = Call { sheet: sheet.to_vec(), servers: 8, values, random, seeds, ..Call::of(Function::MakeSeeded) };
    let message = seed_message(NEXT, 7, &[9; 32]);
    [Call { room: 3_368, ..make }, Call { message, ..fixture.share() }]
}

/// The largest sheets: every function at its most.
fn measure(suite: &mut Suite) -> Result<usize, String> {
    let mut rng = suite.seed(64);
    let own = used(suite, &Call::of(Function::Drop))?;
    let mut most = own;
    for function in [Function::Shelve, Function::Unshelve] {
        let (messages, width, message, room) = (64, 4096, vec![7; 262_144], 262_144);
        most = most.max(used(suite, &Call { messages, width, message, room, ..Call::of(function) })?);
    }
    for sheet in [vec![17; 12], vec![19, 12], top_column(4095), vec![21, 6], [21, 1].repeat(6)] {
        let call = Call { sheet, room: 196_608, ..Call::of(Function::EveryReturn) };
        most = most.max(used(suite, &call)?);
    }
    let mut number = [19, 24].repeat(10);
    number.extend([19, 5]);
    let points = [[[21, 12].repeat(9), vec![17; 4]].concat(), [[21, 1].repeat(42), vec![17; 4]].concat()];
    let sheets = [vec![17; 256], [18, 64].repeat(4), number, longest_sheet(), largest_sheet()];
    for sheet in sheets.into_iter().chain(points) {
        let fixture = Fixture::new(suite, 8, 7, &sheet, 2)?;
        let among = Fixture::among(suite, 8, 0, &sheet, 9, 7)?;
        let read = second::Sheet::read(&sheet).map_err(|number| format!("refused {number}"))?;
        let mut calls = fixture.calls();
        calls.extend(among.calls());
        calls.push(Call { sheet: sheet.clone(), ..Call::of(Function::Sizes) });
        calls.push(Call { sheet: sheet.clone(), room: 7_161, ..Call::of(Function::Circuit) });
        let message = second::circuit(&sheet, 7_161).unwrap_or_default();
        calls.push(Call { entries: 256, message, ..Call::of(Function::ReadCircuit) });
        let values = gen::values(&mut rng, &read);
        let random = gen::elements(&mut rng, 7 * read.share_elements() + 4);
        calls.push(Call { sheet: sheet.clone(), servers: 8, values, random, room: 25_000, ..Call::of(Function::Make) });
        calls.extend(from_seeds(&sheet, &read, &fixture));
        calls.push(Call::open_table(8, 0, &sheet, 2));
        calls.extend(on_totals(sheet, &read));
        for call in &calls {
            most = most.max(used(suite, call)?);
        }
    }
    Ok(most - own)
}

/// No function uses more stack than the header says.
pub fn enough(suite: &mut Suite) -> Verdict {
    let mut inner = Suite::new();
    let run = || {
        let most = measure(&mut inner);
        (inner, most)
    };
    let started = std::thread::Builder::new().stack_size(2 * 1024 * 1024).spawn(run);
    let ended = started.map_err(|error| error.to_string())?.join();
    let (inner, most) = ended.map_err(|_| "the thread panicked".to_string())?;
    suite.add(inner);
    let most = most?;
    println!("the most stack that a call used: {most} bytes");
    if most > ALLOWED {
        return Err(format!("{most} bytes of stack used\nmust be at most {ALLOWED}"));
    }
    Ok(())
}
