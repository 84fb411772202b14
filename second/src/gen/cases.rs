//! Single calls that no table takes part in: sizes, sheet to circuit, reading a circuit,
//! every return, making in both ways, opening, joining, lines, recount and the shelf.

mod random;

use crate::circuit::{circuit, read_circuit, Circuit};
use crate::joining::{join, Joined};
use crate::line::{line, Line};
use crate::listing::{every_return, Listing};
use crate::recount::recount;
use crate::shelf::{shelve, unshelve};
use crate::sizes::{sizes, Sizes};
use crate::{fast, making, seeds, table};

/// One call with its arguments.
#[derive(Clone, Debug, PartialEq, Eq)]
#[allow(missing_docs)]
pub enum Case {
    /// What a sheet comes to.
    Sizes { sheet: Vec<u8> },
    /// Sheet to circuit.
    Circuit { sheet: Vec<u8>, room: usize },
    /// Reading a circuit.
    ReadCircuit { entries: u32, bytes: Vec<u8> },
    /// Every legal return of a sheet.
    EveryReturn { sheet: Vec<u8>, room: usize },
    /// Making a return.
    Make {
        sheet: Vec<u8>,
        servers: u32,
        id: u32,
        values: Vec<u8>,
        random: Vec<u8>,
        room: usize,
    },
    /// Making a return from seeds.
    MakeSeeded(Seeded),
    /// Opening a table.
    Open {
        servers: u32,
        own: u32,
        sheet: Vec<u8>,
        limit: u32,
        least: u32,
    },
    /// Joining closing messages.
    Join {
        servers: u32,
        sheet: Vec<u8>,
        limit: u32,
        joined: Vec<u8>,
        room: usize,
    },
    /// The line of a column.
    Line(Fit),
    /// The text of recount.
    Recount { input: Vec<u8> },
    /// Messages stored by place.
    Shelve(Shelf),
    /// Messages brought back.
    Unshelve(Shelf),
}

/// The arguments of making from seeds.
#[derive(Clone, Debug, PartialEq, Eq)]
#[allow(missing_docs)]
pub struct Seeded {
    pub sheet: Vec<u8>,
    pub servers: u32,
    pub id: u32,
    pub values: Vec<u8>,
    pub random: Vec<u8>,
    pub seeds: Vec<u8>,
    pub room: usize,
}

/// The arguments of the line of a column.
#[derive(Clone, Debug, PartialEq, Eq)]
#[allow(missing_docs)]
pub struct Fit {
    pub servers: u32,
    pub sheet: Vec<u8>,
    pub limit: u32,
    pub joined: Vec<u8>,
    pub column: u32,
}

/// The arguments of both calls at the shelf.
#[derive(Clone, Debug, PartialEq, Eq)]
#[allow(missing_docs)]
pub struct Shelf {
    pub messages: u32,
    pub width: u32,
    pub run: Vec<u8>,
    pub room: usize,
}

/// The answer to a case.
#[derive(Clone, Debug, PartialEq, Eq)]
#[allow(missing_docs)]
pub enum CaseAnswer {
    /// What a sheet comes to.
    Sizes(Sizes),
    /// The bytes written by sheet to circuit, by making or at the shelf.
    Bytes(Vec<u8>),
    /// A circuit was read, with these counts.
    Counts {
        wires: usize,
        multiplications: usize,
        tests: usize,
    },
    /// Every legal return.
    Listing(Listing),
    /// A table was opened.
    Opened,
    /// Totals were joined.
    Joined(Joined),
    /// The line of a column.
    Line(Line),
    /// What recount prints.
    Text(String),
    /// The refusal's number.
    Refused(u32),
}

/// A case with its answer.
#[derive(Clone, Debug, PartialEq, Eq)]
pub struct Exchange {
    /// The call.
    pub case: Case,
    /// The plain form's answer.
    pub answer: CaseAnswer,
}

impl Exchange {
    /// A case with the plain form's answer to it.
    pub fn of(case: Case) -> Exchange {
        let answer = case.plain();
        Exchange { case, answer }
    }
}

fn counts(circuit: Circuit) -> CaseAnswer {
    CaseAnswer::Counts {
        wires: circuit.wires(),
        multiplications: circuit.multiplications(),
        tests: circuit.tests(),
    }
}

/// How a form makes returns and opens tables.
type Make = fn(&[u8], u32, u32, &[u8], &[u8], usize) -> Result<Vec<u8>, u32>;
type MakeSeeded = fn(&[u8], u32, u32, &[u8], &[u8], &[u8], usize) -> Result<Vec<u8>, u32>;
type Open<T> = fn(u32, u32, &[u8], u32, u32) -> Result<T, u32>;

impl Case {
    /// The plain form's answer.
    pub fn plain(&self) -> CaseAnswer {
        self.answer(making::make, seeds::make_seeded, table::open)
    }

    /// The fast form's answer.
    pub fn fast(&self) -> CaseAnswer {
        self.answer(fast::make, fast::make_seeded, fast::open)
    }

    /// The answer of a form; the forms differ in making and opening alone.
    fn answer<T>(&self, make: Make, make_seeded: MakeSeeded, open: Open<T>) -> CaseAnswer {
        let answer = match self {
            Case::Sizes { sheet } => sizes(sheet).map(CaseAnswer::Sizes),
            Case::Circuit { sheet, room } => circuit(sheet, *room).map(CaseAnswer::Bytes),
            Case::ReadCircuit { entries, bytes } => read_circuit(*entries, bytes).map(counts),
            Case::EveryReturn { sheet, room: r } => {
                every_return(sheet, *r).map(CaseAnswer::Listing)
            }
            Case::Make {
                sheet,
                servers,
                id,
                values,
                random,
                room,
            } => make(sheet, *servers, *id, values, random, *room).map(CaseAnswer::Bytes),
            Case::MakeSeeded(x) => {
                let (sheet, values, random, seeds) = (&x.sheet, &x.values, &x.random, &x.seeds);
                make_seeded(sheet, x.servers, x.id, values, random, seeds, x.room)
                    .map(CaseAnswer::Bytes)
            }
            Case::Open {
                servers,
                own,
                sheet,
                limit,
                least,
            } => open(*servers, *own, sheet, *limit, *least).map(|_| CaseAnswer::Opened),
            Case::Join {
                servers,
                sheet,
                limit,
                joined,
                room,
            } => join(*servers, sheet, *limit, joined, *room).map(CaseAnswer::Joined),
            Case::Line(x) => {
                line(x.servers, &x.sheet, x.limit, &x.joined, x.column).map(CaseAnswer::Line)
            }
            Case::Recount { input } => Ok(CaseAnswer::Text(recount(input))),
            Case::Shelve(x) => shelve(x.messages, x.width, &x.run, x.room).map(CaseAnswer::Bytes),
            Case::Unshelve(x) => {
                unshelve(x.messages, x.width, &x.run, x.room).map(CaseAnswer::Bytes)
            }
        };
        answer.unwrap_or_else(CaseAnswer::Refused)
    }
}
