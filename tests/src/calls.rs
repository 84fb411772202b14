//! A call as plain data, and carrying it out on the library with every lent buffer between guards.

mod sheets;
mod shelf;
mod tables;

use second::gen::Rng;

use crate::c;
use crate::guard::{Lent, Word};
use crate::layout::{Parts, SLOTS};

/// Room for the bytes and for the numbers of any table.
pub const MOST_BYTES: usize = 5_390;
pub const MOST_ELEMENTS: usize = 6_208;

/// The functions of pool.h.
#[derive(Clone, Copy, Debug, PartialEq, Eq, PartialOrd, Ord)]
pub enum Function {
    Sizes,
    Circuit,
    ReadCircuit,
    EveryReturn,
    Make,
    MakeSeeded,
    Open,
    Share,
    RoundOne,
    RoundTwo,
    Enter,
    Drop,
    Close,
    State,
    Join,
    Line,
    Shelve,
    Unshelve,
}

/// A call with its arguments; a function takes those that the header names and leaves the others empty.
#[derive(Clone, Debug)]
pub struct Call {
    pub function: Function,
    pub servers: u32,
    pub own: u32,
    pub returns: u32,
    pub least: u32,
    pub entries: u32,
    pub column: u32,
    pub id: u32,
    pub messages: u32,
    pub width: u32,
    pub r: u64,
    pub s: u64,
    pub sheet: Vec<u8>,
    pub values: Vec<u8>,
    pub random: Vec<u8>,
    pub seeds: Vec<u8>,
    pub table: Parts,
    /// The share, the joined messages, the circuit or the run of messages for the shelf.
    pub message: Vec<u8>,
    /// The length of the output buffer; for opening that of the buffer for the table's bytes.
    pub room: usize,
    /// The records and the numbers that opening is lent.
    pub slots: usize,
    pub elements: usize,
}

/// What a call that is done gives: its numbers, those with a sign, the bytes written, and the whole lent table after it; of
/// an opened table the bytes and numbers that belong to it.
#[derive(Clone, Debug, PartialEq, Eq)]
pub struct Done {
    pub numbers: Vec<u64>,
    pub signed: Vec<i64>,
    pub bytes: Vec<u8>,
    pub table: Parts,
}

/// The answer to a call: done, or the refusal's number.
pub type Outcome = Result<Done, u32>;

/// A call on no table that is done.
pub fn plain(numbers: Vec<u64>, bytes: Vec<u8>) -> Outcome {
    Ok(Done { numbers, signed: Vec::new(), bytes, table: Parts::default() })
}

/// A line that is found.
pub fn found(determinant: i64, slope: i64, intercept: i64) -> Outcome {
    let signed = vec![determinant, slope, intercept];
    Ok(Done { numbers: Vec::new(), signed, bytes: Vec::new(), table: Parts::default() })
}

impl Call {
    /// A call of a function without arguments.
    pub fn of(function: Function) -> Call {
        Call {
            function,
            servers: 0,
            own: 0,
            returns: 0,
            least: 0,
            entries: 0,
            column: 0,
            id: 0,
            messages: 0,
            width: 0,
            r: 0,
            s: 0,
            sheet: Vec::new(),
            values: Vec::new(),
            random: Vec::new(),
            seeds: Vec::new(),
            table: Parts::default(),
            message: Vec::new(),
            room: 0,
            slots: SLOTS,
            elements: MOST_ELEMENTS,
        }
    }

    /// Opening with Q = 1 and room for any table.
    pub fn open_table(servers: u32, own: u32, sheet: &[u8], returns: u32) -> Call {
        let (sheet, room) = (sheet.to_vec(), MOST_BYTES);
        Call { servers, own, sheet, returns, least: 1, room, ..Call::of(Function::Open) }
    }

    /// The state of a table.
    pub fn state_of(table: &Parts) -> Call {
        Call { table: table.clone(), ..Call::of(Function::State) }
    }

    /// Carries the call out. An error tells which lent byte was changed that had to stay.
    pub fn run(&self, rng: &mut Rng) -> Result<Outcome, String> {
        match self.function {
            Function::Sizes => self.sizes(rng),
            Function::Circuit => self.circuit(rng),
            Function::ReadCircuit => self.read_circuit(rng),
            Function::EveryReturn => self.every_return(rng),
            Function::Make => self.make(rng),
            Function::MakeSeeded => self.make_seeded(rng),
            Function::Open => self.open(rng),
            Function::Share => self.share(rng),
            Function::RoundOne => self.round_one(rng),
            Function::RoundTwo => self.round_two(rng),
            Function::Enter => self.by_id(rng, c::pool_enter),
            Function::Drop => self.by_id(rng, c::pool_drop),
            Function::Close => self.close(rng),
            Function::State => self.state(rng),
            Function::Join => self.join(rng),
            Function::Line => self.line(rng),
            Function::Shelve => self.shelve(rng),
            Function::Unshelve => self.unshelve(rng),
        }
    }
}

/// The answer of a call whose results are numbers.
fn numbers(answer: u32, words: &[Word<u32>]) -> Result<Outcome, String> {
    for word in words {
        word.kept(answer != 0)?;
    }
    if answer != 0 {
        return Ok(Err(answer));
    }
    Ok(plain(words.iter().map(|word| u64::from(word.value())).collect(), Vec::new()))
}

/// The answer of a call that writes into a buffer.
fn wrote(answer: u32, out: &Lent, written: &Word<usize>, words: &[Word<u32>]) -> Result<Outcome, String> {
    written.kept(answer != 0)?;
    let mut outcome = numbers(answer, words)?;
    match &mut outcome {
        Err(_) => out.kept()?,
        Ok(done) => {
            let length = written.value();
            if length > out.length() {
                return Err(format!("{length} bytes written, it says, into a buffer of {}", out.length()));
            }
            out.kept_past(length)?;
            done.bytes = out.items(length);
        }
    }
    Ok(outcome)
}
