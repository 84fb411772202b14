//! A server's table as a plain struct, and the calls on it.

mod state;

use std::borrow::Cow;

use crate::circuit::Circuit;
use crate::field;
use crate::judging::{find, Findings, Held, ROUND_ONE_LENGTH, ROUND_TWO_LENGTH};
use crate::seeds::{self, SEED_LENGTH};
use crate::sheet::Sheet;
use state::State;

/// The kind byte of a closing message.
pub const CLOSING: u8 = 36;

/// How many returns a table holds that are not decided yet.
pub const PLACES: usize = 8;

/// Where a return that waits stands.
#[derive(Clone, Copy, Debug, PartialEq, Eq)]
pub enum Stage {
    /// Takes round one's joined messages or a drop.
    AwaitsRoundOne,
    /// Takes round two's joined messages or a drop.
    AwaitsRoundTwo,
    /// Accepted: takes an entry or a drop.
    AwaitsEntry,
}

/// The verdict on a return.
#[derive(Clone, Copy, Debug, PartialEq, Eq)]
pub enum Verdict {
    /// Both sums were 0 modulo p; the return waits until it is entered or dropped.
    Accepted,
    /// One of the sums was not 0; the return is decided.
    Rejected,
}

/// Where a pool stands, as a table tells it.
#[derive(Clone, Copy, Debug, PartialEq, Eq)]
pub struct Standing {
    /// S.
    pub servers: u32,
    /// The own number.
    pub own: u32,
    /// N.
    pub limit: u32,
    /// Q.
    pub least: u32,
    /// Whether the table is closed.
    pub closed: bool,
    /// How many returns are decided, entered ones among them.
    pub decided: u32,
    /// How many are entered.
    pub entered: u32,
    /// How many wait.
    pub waiting: u32,
}

/// How a table works on a share.
pub trait Form {
    /// What is fixed when a table is opened.
    fn of(sheet: &Sheet) -> Self;

    /// The bytes of so many elements from a seed.
    fn expand(&self, seed: &[u8; SEED_LENGTH], id: u32, count: usize) -> Vec<u8>;

    /// Works on the L + 2M + 6 elements of a share, all below p, with challenges in range.
    /// `first` tells whether this is server 0.
    fn work(&mut self, sheet: &Sheet, first: bool, elements: &[u8], r: u64, s: u64) -> Worked;
}

/// What comes of a share.
pub struct Worked {
    pub(crate) findings: Findings,
    /// The published entries.
    pub(crate) published: Vec<u64>,
}

/// The plain form runs the circuit step by step.
impl Form for Circuit {
    fn of(sheet: &Sheet) -> Circuit {
        Circuit::of(sheet)
    }

    fn expand(&self, seed: &[u8; SEED_LENGTH], id: u32, count: usize) -> Vec<u8> {
        let elements = seeds::expand(seed, id, count);
        elements.into_iter().flat_map(field::bytes).collect()
    }

    fn work(&mut self, sheet: &Sheet, first: bool, elements: &[u8], r: u64, s: u64) -> Worked {
        let elements: Vec<u64> = field::words(elements).map(u64::from).collect();
        let entries = sheet.published_entries();
        Worked {
            findings: find(self, first, &elements, r, s),
            published: entries.map(|entry| elements[entry]).collect(),
        }
    }
}

/// A server's table, in the plain form unless another is named.
#[derive(Clone, Debug)]
pub struct Table<F = Circuit> {
    state: State,
    form: F,
}

/// Tables are the same when they know the same, in whatever form.
impl<F, G> PartialEq<Table<G>> for Table<F> {
    fn eq(&self, other: &Table<G>) -> bool {
        self.state == other.state
    }
}

impl<F> Eq for Table<F> {}

impl<F> Table<F> {
    /// Whether the table is closed: it takes nothing then.
    pub fn closed(&self) -> bool {
        self.state.closed
    }

    /// The ids decided so far, in order.
    pub fn decided(&self) -> &[u32] {
        &self.state.decided
    }

    /// The number of entered returns.
    pub fn entered(&self) -> u32 {
        self.state.entered
    }

    /// The ids that wait with their stages, in the order of their places.
    pub fn waiting(&self) -> Vec<(u32, Stage)> {
        let waiting = self.state.waiting();
        waiting.map(|own| (own.id, own.stage())).collect()
    }

    /// The stage of the return that waits under an id, if one does.
    pub fn stage(&self, id: u32) -> Option<Stage> {
        let mut waiting = self.state.waiting();
        waiting.find(|own| own.id == id).map(|own| own.stage())
    }

    /// The message that this table wrote for the round that an id waits for.
    pub fn waiting_message(&self, id: u32) -> Option<&[u8]> {
        let mut waiting = self.state.waiting();
        waiting.find(|own| own.id == id)?.message()
    }
}

/// Opens a table of any form with S, the own number, a sheet, N and Q.
pub(crate) fn open_as<F: Form>(
    servers: u32,
    own: u32,
    sheet: &[u8],
    limit: u32,
    least: u32,
) -> Result<Table<F>, u32> {
    let state = State::open(servers, own, sheet, limit, least)?;
    let form = F::of(&state.sheet);
    Ok(Table { state, form })
}

/// Opens a table with S, the own number, a sheet, N and the least count Q. Order of
/// refusals: S and own number, sheet, N, Q, 4.
pub fn open(servers: u32, own: u32, sheet: &[u8], limit: u32, least: u32) -> Result<Table, u32> {
    open_as(servers, own, sheet, limit, least)
}

/// Takes a share, in a long message or a seed message; gives the server's round one message, which has r and s too. Order of
/// refusals: 11, 13, 7, 8, 10, 9, 14.
pub fn share<F: Form>(
    table: &mut Table<F>,
    message: &[u8],
    r: u64,
    s: u64,
    room: usize,
) -> Result<[u8; ROUND_ONE_LENGTH], u32> {
    let Table { state, form } = table;
    let (id, held) = state.check_share(message, r, s, room)?;
    let elements = match held {
        Held::Elements(bytes) => Cow::Borrowed(bytes),
        Held::Seed(seed) => Cow::Owned(form.expand(seed, id, state.sheet.share_elements())),
    };
    let worked = form.work(&state.sheet, state.first(), &elements, r, s);
    state.note_share(id, r, s, worked)
}

/// Takes round one's joined messages, in any order, for the return that waits under an id;
/// gives the server's round two message. Order of refusals: 11, 12, 16, 14.
pub fn round_one<F>(
    table: &mut Table<F>,
    id: u32,
    joined: &[u8],
    room: usize,
) -> Result<[u8; ROUND_TWO_LENGTH], u32> {
    table.state.round_one(id, joined, room)
}

/// Takes round two's joined messages, in any order, for the return that waits under an id;
/// gives the verdict. A rejected return is decided, an accepted one waits for entry. Order of
/// refusals: 11, 12.
pub fn round_two<F>(table: &mut Table<F>, id: u32, joined: &[u8]) -> Result<Verdict, u32> {
    table.state.round_two(id, joined)
}

/// Enters the accepted return that waits under an id: adds its published entries to the totals.
/// Refusal: 11.
pub fn enter<F>(table: &mut Table<F>, id: u32) -> Result<(), u32> {
    table.state.enter(id)
}

/// Drops the return that waits under an id, accepted or not; the id stays used. Refusal: 11.
pub fn drop<F>(table: &mut Table<F>, id: u32) -> Result<(), u32> {
    table.state.drop(id)
}

/// Tells where the pool stands. Nothing changes.
pub fn standing<F>(table: &Table<F>) -> Standing {
    table.state.standing()
}

/// Closes the table when at least Q returns are entered; gives the closing message. Order of
/// refusals: 11, 15, 14.
pub fn close<F>(table: &mut Table<F>, room: usize) -> Result<Vec<u8>, u32> {
    table.state.close(room)
}
