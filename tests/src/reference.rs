//! The answer that every call must have: from the second program, and for calls on a table twice: from the layout of its
//! parts with the second program's judging, and from the second program's lent form.

mod lent;
mod tables;

use second::{fast, Sizes, Standing};

use crate::calls::{found, plain, Call, Function, Outcome};
use crate::layout::put_word;
use crate::tell::told;
pub use tables::own_message;

/// The lengths of round one and of round two messages.
pub const ONE_BYTES: usize = 22;
pub const TWO_BYTES: usize = 14;

/// The length of each of the joined messages of a round, by the first kind byte.
pub fn message_length(joined: &[u8]) -> usize {
    if joined.first() == Some(&34) {
        ONE_BYTES
    } else {
        TWO_BYTES
    }
}

/// The answer to a call. An error tells that the two answers to a call on a table differ.
pub fn answer(call: &Call) -> Result<Outcome, String> {
    let first = by_layout(call);
    match lent::answer(call) {
        Some(second) if second != first => {
            Err(format!("{} by the layout\nand {} by the lent form", told(&first), told(&second)))
        }
        _ => Ok(first),
    }
}

fn by_layout(call: &Call) -> Outcome {
    match call.function {
        Function::Sizes => plain(sizes(&second::sizes(&call.sheet)?), Vec::new()),
        Function::Circuit => plain(Vec::new(), second::circuit(&call.sheet, call.room)?),
        Function::ReadCircuit => read_circuit(call),
        Function::EveryReturn => every_return(call),
        Function::Make => make(call),
        Function::MakeSeeded => make_seeded(call),
        Function::Open => tables::open(call),
        Function::Share => tables::share(call),
        Function::RoundOne => tables::round_one(call),
        Function::RoundTwo => tables::round_two(call),
        Function::Enter => tables::enter(call),
        Function::Drop => tables::drop(call),
        Function::Close => tables::close(call),
        Function::State => tables::state(call),
        Function::Join => join(call),
        Function::Line => line(call),
        Function::Shelve => plain(Vec::new(), second::shelve(call.messages, call.width, &call.message, call.room)?),
        Function::Unshelve => plain(Vec::new(), second::unshelve(call.messages, call.width, &call.message, call.room)?),
    }
}

/// What a sheet comes to, in the order of the header's results.
pub fn sizes(told: &Sizes) -> Vec<u64> {
    let lengths = [told.circuit_bytes, told.share_bytes, told.greatest_limit as usize];
    let sheet = [told.columns, told.entries, told.published];
    let circuit = [told.wires, told.multiplications, told.tests];
    [sheet, circuit, lengths].concat().into_iter().map(|number| number as u64).collect()
}

/// Where a pool stands, in the order of the header's results.
pub fn standing(told: &Standing) -> Vec<u64> {
    let Standing { servers, own, limit, least, closed, decided, entered, waiting } = *told;
    [servers, own, limit, least, u32::from(closed), decided, entered, waiting].map(u64::from).to_vec()
}

fn read_circuit(call: &Call) -> Outcome {
    let circuit = second::read_circuit(call.entries, &call.message)?;
    let counts = [circuit.wires(), circuit.multiplications(), circuit.tests()];
    plain(counts.map(|count| count as u64).to_vec(), Vec::new())
}

fn every_return(call: &Call) -> Outcome {
    let listing = second::every_return(&call.sheet, call.room)?;
    plain(vec![u64::from(listing.lists)], listing.values)
}

fn make(call: &Call) -> Outcome {
    let made = fast::make(&call.sheet, call.servers, call.id, &call.values, &call.random, call.room)?;
    plain(Vec::new(), made)
}

fn make_seeded(call: &Call) -> Outcome {
    let Call { servers, id, room, sheet, values, random, seeds, .. } = call;
    plain(Vec::new(), fast::make_seeded(sheet, *servers, *id, values, random, seeds, *room)?)
}

fn join(call: &Call) -> Outcome {
    let joined = second::join(call.servers, &call.sheet, call.returns, &call.message, call.room)?;
    plain(vec![u64::from(joined.count)], joined.totals)
}

fn line(call: &Call) -> Outcome {
    let line = second::line(call.servers, &call.sheet, call.returns, &call.message, call.column)?;
    found(line.determinant, line.slope, line.intercept)
}

/// A round message: kind, id, server, elements.
pub fn round_message(kind: u8, id: u32, server: u32, elements: &[u64]) -> Vec<u8> {
    let mut message = vec![kind, 0, 0, 0, 0, server as u8];
    put_word(&mut message, 1, id.into());
    message.extend(elements.iter().flat_map(|&element| (element as u32).to_le_bytes()));
    message
}
