//! Calls and outcomes as text.

use std::fmt;

use second::gen::Hex;

use crate::calls::{Call, Done, Function, Outcome};
use crate::layout::{Parts, Slot};

/// The three parts by the header's names: slots in decimal, free ones of zeros as a dash, runs of zeros counted.
impl fmt::Display for Parts {
    fn fmt(&self, f: &mut fmt::Formatter) -> fmt::Result {
        write!(f, "table={} slots={} elements=", Hex(&self.bytes), self.slots.len())?;
        let mut rest = &self.elements[..];
        while let Some(&number) = rest.first() {
            let zeros = rest.iter().take_while(|&&number| number == 0).count();
            match zeros {
                0 => write!(f, "{number},")?,
                _ => write!(f, "0*{zeros},")?,
            }
            rest = &rest[zeros.max(1)..];
        }
        write!(f, " ({} numbers) [", self.elements.len())?;
        for &Slot { id, stage, r, s, d, e } in &self.slots {
            match [r, s, d, e, id.into(), stage.into()].iter().all(|&field| field == 0) {
                true => write!(f, " -")?,
                false => write!(f, " {id}:{stage}:{r}:{s}:{d}:{e}")?,
            }
        }
        write!(f, " ]")
    }
}

/// The function with its arguments by the header's names: numbers in decimal, bytes in hex, rooms as lengths.
impl fmt::Display for Call {
    fn fmt(&self, f: &mut fmt::Formatter) -> fmt::Result {
        let (sheet, message, table) = (Hex(&self.sheet), Hex(&self.message), &self.table);
        let (servers, returns, id, room) = (self.servers, self.returns, self.id, self.room);
        match self.function {
            Function::Sizes => write!(f, "pool_sizes sheet={sheet}"),
            Function::Circuit => write!(f, "pool_circuit sheet={sheet} out_len={room}"),
            Function::ReadCircuit => write!(f, "pool_read_circuit entries={} circuit={message}", self.entries),
            Function::EveryReturn => write!(f, "pool_every_return sheet={sheet} out_len={room}"),
            Function::Make => {
                write!(f, "pool_make sheet={sheet} servers={servers} id={id} ")?;
                write!(f, "values={} random={} out_len={room}", Hex(&self.values), Hex(&self.random))
            }
            Function::MakeSeeded => {
                write!(f, "pool_make_seeded sheet={sheet} servers={servers} id={id} values={} ", Hex(&self.values))?;
                write!(f, "random={} seeds={} out_len={room}", Hex(&self.random), Hex(&self.seeds))
            }
            Function::Open => {
                write!(f, "pool_open servers={servers} own={} sheet={sheet} ", self.own)?;
                write!(f, "returns={returns} least={} table_len={room} ", self.least)?;
                write!(f, "slots_len={} elements_len={}", self.slots, self.elements)
            }
            Function::Share => {
                write!(f, "pool_share {table} message={message} r={} s={} out_len={room}", self.r, self.s)
            }
            Function::RoundOne => write!(f, "pool_round_one {table} id={id} joined={message} out_len={room}"),
            Function::RoundTwo => write!(f, "pool_round_two {table} id={id} joined={message}"),
            Function::Enter => write!(f, "pool_enter {table} id={id}"),
            Function::Drop => write!(f, "pool_drop {table} id={id}"),
            Function::Close => write!(f, "pool_close {table} out_len={room}"),
            Function::State => write!(f, "pool_state {table}"),
            Function::Join => {
                write!(f, "pool_join servers={servers} sheet={sheet} returns={returns} ")?;
                write!(f, "joined={message} out_len={room}")
            }
            Function::Line => {
                write!(f, "pool_line servers={servers} sheet={sheet} returns={returns} ")?;
                write!(f, "joined={message} column={}", self.column)
            }
            Function::Shelve | Function::Unshelve => {
                let name = if self.function == Function::Shelve { "pool_shelve" } else { "pool_unshelve" };
                write!(f, "{name} messages={} width={} run={message} out_len={room}", self.messages, self.width)
            }
        }
    }
}

/// An outcome in one line.
pub fn told(outcome: &Outcome) -> String {
    match outcome {
        Err(number) => format!("refused {number}"),
        Ok(done) => {
            let mut text = String::from("done");
            if !done.numbers.is_empty() {
                text += &format!(", numbers {:?}", done.numbers);
            }
            if !done.signed.is_empty() {
                text += &format!(", signed {:?}", done.signed);
            }
            if !done.bytes.is_empty() {
                text += &format!(", bytes {}", Hex(&done.bytes));
            }
            if done.table != Parts::default() {
                text += &format!(", {}", done.table);
            }
            text
        }
    }
}

/// Where two lists differ first.
fn first<T: PartialEq + fmt::Debug>(what: &str, is: &[T], must: &[T]) -> Option<String> {
    if is.len() != must.len() {
        return Some(format!("{} {what}, must be {}", is.len(), must.len()));
    }
    let at = (0..is.len()).find(|&at| is[at] != must[at])?;
    Some(format!("{what} at {at}: {:?}, must be {:?}", is[at], must[at]))
}

/// The first difference of two outcomes, both done.
fn differ(is: &Done, must: &Done) -> Option<String> {
    let numbers = first("numbers", &is.numbers, &must.numbers);
    let signed = || first("signed", &is.signed, &must.signed);
    let slots = || first("slots", &is.table.slots, &must.table.slots);
    let elements = || first("elements", &is.table.elements, &must.table.elements);
    let written = || first("bytes written", &is.bytes, &must.bytes);
    let bytes = || first("bytes of the table", &is.table.bytes, &must.table.bytes);
    numbers.or_else(signed).or_else(written).or_else(bytes).or_else(slots).or_else(elements)
}

/// What an outcome is and what it must be.
pub fn compared(is: &Outcome, must: &Outcome) -> String {
    let text = format!("{}\nmust be {}", told(is), told(must));
    match (is, must) {
        (Ok(is), Ok(must)) => format!("{text}\ndiffers first in {}", differ(is, must).unwrap_or_default()),
        _ => text,
    }
}
