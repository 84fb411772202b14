//! The lent form: a table in three parts that the host lends, looked over at every call.
//!
//! The calls and answers are those of the plain form, with buffers in place of vectors. A slice
//! of bytes and a run of numbers may be longer than the table needs; what lies past is neither
//! read nor written. A refusal changes nothing in any buffer. Nothing is allocated.
//!
//! # The bytes of a table
//!
//! | from | bytes | what |
//! | --- | --- | --- |
//! | 0 | 1 | table byte: 3 |
//! | 1 | 1 | stage: 0 open, 1 closed |
//! | 2 | 1 | S |
//! | 3 | 1 | own number |
//! | 4 | 2 | N |
//! | 6 | 2 | returns decided, dropped ones included |
//! | 8 | 2 | returns entered |
//! | 10 | 2 | Q |
//! | 12 | 2 | n, the length of the sheet (a sheet that is read has 1 to 426 bytes) |
//! | 14 | n | the sheet |
//! | | 4 P | the totals, an element for each of the P published entries |
//! | | 4 N | N ids, the decided ones first, in the order in which they were |
//!
//! # The waiting list
//!
//! Exactly eight records, [`Slot`]. A share goes into the first free one, and a return that is
//! decided leaves its record all 0.
//!
//! | field | stage 1, awaits round one | stage 2, awaits round two | stage 3, awaits entry |
//! | --- | --- | --- | --- |
//! | id | of the return | the same | the same |
//! | r, s | the challenges of its share | the same | the same |
//! | d, e | d_i and e_i of this server | the sums of round one | the same |
//!
//! Stage 0 is a free record. The record of an id is the first one that waits under it. An accepted
//! verdict changes the stage and nothing else.
//!
//! # The run of numbers
//!
//! Each record has a place of E + 2 numbers, where E = L + 2M + 6 is the number of elements of a
//! share. That of record i starts at i × (E + 2), so the run has at least 8 × (E + 2) numbers,
//! which is 6,208 at most.
//!
//! | from | numbers | what |
//! | --- | --- | --- |
//! | 0 | E | the elements of the share |
//! | E | 1 | r × h_i(r) |
//! | E + 1 | 1 | tau_i |
//!
//! A return that is decided leaves its place all 0.
//!
//! # Which tables are refused 11
//!
//! Those whose bytes or numbers are too few, whose records are not eight, or whose table byte,
//! stage, S, own number, N, Q, sheet or refusal 4's rule breaks its limit. The counts: entered at
//! most decided, decided and waiting together at most N. Totals are below p. A record has stage
//! 0, 1, 2 or 3; where it waits, r is above M and below p, s, d and e are below p, and so are all
//! numbers of its place.
//!
//! All else is free: what a free record holds and the numbers of its place, the ids' places past
//! the decided ones, which ids were decided, an id that waits twice or is decided too, and a d,
//! e, r × h(r) or tau that the share does not give.

mod judge;
mod layout;
mod points;
mod shape;
mod slot;
mod totals;
mod walk;

use crate::fast::seeds::fill;
use crate::field;
use crate::judging::{
    check_challenges, parts_of_length, round_one_message, round_one_sums, round_two_message,
    round_two_sums, sigma, Findings, Held, ROUND_ONE_LENGTH, ROUND_TWO_LENGTH,
};
use crate::limits::{check_limit, check_servers};
use crate::refusal;
use crate::sheet::{MAX_ENTRIES, MAX_MULTIPLICATIONS};
use crate::table::{Standing, Verdict, CLOSING};
use layout::{Table, Word};
use shape::Shape;
pub use slot::{Slot, AWAITS_ENTRY, AWAITS_ONE, AWAITS_TWO, FREE, SLOTS};

/// L + 2M + 6, at most.
const MAX_ELEMENTS: usize = (MAX_ENTRIES + 2 * MAX_MULTIPLICATIONS) as usize + 6;

/// The length of a table's bytes with this sheet and N. Order of refusals: sheet, N, 4.
pub fn length(sheet: &[u8], limit: u32) -> Result<usize, u32> {
    let shape = Shape::read(sheet)?;
    check_limit(shape.largest, limit)?;
    Ok(layout::length(sheet.len(), &shape, limit as usize))
}

/// The length of a table's run of numbers with this sheet. Refusals of the sheet.
pub fn run_length(sheet: &[u8]) -> Result<usize, u32> {
    Ok(Shape::read(sheet)?.run_length())
}

/// Opens a table with S, the own number, a sheet, N and the least count Q: writes all three parts
/// and gives the length of the bytes. Order of refusals: S and own number, sheet, N, Q, 4, 14.
#[allow(clippy::too_many_arguments)]
pub fn open(
    servers: u32,
    own: u32,
    sheet: &[u8],
    limit: u32,
    least: u32,
    table: &mut [u8],
    slots: &mut [Slot],
    elements: &mut [u32],
) -> Result<usize, u32> {
    check_servers(servers)?;
    if own >= servers {
        return Err(refusal::LIMIT);
    }
    let shape = Shape::opening(sheet, limit, least)?;
    let length = layout::length(sheet.len(), &shape, limit as usize);
    let bytes = table.get_mut(..length).ok_or(refusal::ROOM)?;
    let numbers = elements.get_mut(..shape.run_length());
    let numbers = numbers.ok_or(refusal::ROOM)?;
    if slots.len() != SLOTS {
        return Err(refusal::ROOM);
    }
    let (limit, least) = (limit as u16, least as u16);
    layout::write(bytes, servers as u8, own as u8, sheet, limit, least);
    slots.fill(Slot::default());
    numbers.fill(0);
    Ok(length)
}

/// Takes a share, in a long message or a seed message, into the first free record; writes the server's round one message, which has r
/// and s too, and gives its length. Order of refusals: 11, 13, 7, 8, 10, 9, 14.
pub fn share(
    table: &mut [u8],
    slots: &mut [Slot],
    elements: &mut [u32],
    message: &[u8],
    r: u64,
    s: u64,
    out: &mut [u8],
) -> Result<usize, u32> {
    let mut table = Table::look_over(table, slots, elements)?;
    let shape = table.shape;
    let free = table.free().ok_or(refusal::STAGE)?;
    if table.decided + table.waiting >= table.ids.len() {
        return Err(refusal::FULL);
    }
    let (id, held) = parts_of_length(shape.share_length(), table.own(), message)?;
    // What comes of a seed is below p.
    if matches!(held, Held::Elements(bytes) if !field::all_elements(bytes)) {
        return Err(refusal::ELEMENT);
    }
    if table.has_decided(id) || table.waits(id).is_some() {
        return Err(refusal::DECIDED);
    }
    check_challenges(shape.gates, r, s)?;
    let out = out.first_chunk_mut().ok_or(refusal::ROOM)?;

    let mut expanded;
    let words: &[Word] = match held {
        Held::Elements(bytes) => bytes.as_chunks().0,
        Held::Seed(seed) => {
            expanded = [Word::default(); MAX_ELEMENTS];
            fill(seed, id, &mut expanded[..shape.elements()]);
            &expanded[..shape.elements()]
        }
    };
    let found = judge::find(table.sheet, &shape, table.own() == 0, words, r, s);
    note_share(&mut table, free, words, &found);
    table.slots[free] = Slot {
        id,
        stage: AWAITS_ONE,
        r,
        s,
        d: found.d,
        e: found.e,
    };
    *out = round_one_message(id, table.own(), [found.d, found.e], [r, s]);
    Ok(ROUND_ONE_LENGTH)
}

/// Notes the elements of a share, r × h(r) and tau at a place.
fn note_share(table: &mut Table, at: usize, words: &[Word], found: &Findings) {
    let (elements, rest) = table.place_mut(at).split_at_mut(words.len());
    for (element, &word) in elements.iter_mut().zip(words) {
        *element = u32::from_le_bytes(word);
    }
    rest.copy_from_slice(&[found.rh as u32, found.tau as u32]);
}

/// Takes round one's joined messages, in any order, for the return that waits under an id;
/// writes the server's round two message and gives its length. Order of refusals: 11, 12, 16,
/// 14.
pub fn round_one(
    table: &mut [u8],
    slots: &mut [Slot],
    elements: &mut [u32],
    id: u32,
    joined: &[u8],
    out: &mut [u8],
) -> Result<usize, u32> {
    let table = Table::look_over(table, slots, elements)?;
    let at = awaits(&table, id, AWAITS_ONE)?;
    let own = table.own();
    let found = table.findings(at);
    let Slot { r, s, .. } = table.slots[at];
    let written = round_one_message(id, own, [found.d, found.e], [r, s]);
    let (d, e) = round_one_sums(table.servers(), &written, joined)?;
    let out = out.first_chunk_mut().ok_or(refusal::ROOM)?;

    let sigma = sigma(&found, own == 0, d, e);
    let slot = &mut table.slots[at];
    slot.stage = AWAITS_TWO;
    (slot.d, slot.e) = (d, e);
    *out = round_two_message(id, own, sigma, found.tau);
    Ok(ROUND_TWO_LENGTH)
}

/// Takes round two's joined messages, in any order, for the return that waits under an id; gives
/// the verdict. A rejected return is decided, an accepted one waits for entry. Order of refusals:
/// 11, 12.
pub fn round_two(
    table: &mut [u8],
    slots: &mut [Slot],
    elements: &mut [u32],
    id: u32,
    joined: &[u8],
) -> Result<Verdict, u32> {
    let mut table = Table::look_over(table, slots, elements)?;
    let at = awaits(&table, id, AWAITS_TWO)?;
    let own = table.own();
    let found = table.findings(at);
    let sigma = sigma(&found, own == 0, found.d, found.e);
    let written = round_two_message(id, own, sigma, found.tau);
    let sums = round_two_sums(table.servers(), &written, joined)?;
    if sums != (0, 0) {
        table.decide(at);
        return Ok(Verdict::Rejected);
    }
    table.slots[at].stage = AWAITS_ENTRY;
    Ok(Verdict::Accepted)
}

/// Enters the accepted return that waits under an id: adds its published entries to the totals.
/// Refusal: 11.
pub fn enter(
    table: &mut [u8],
    slots: &mut [Slot],
    elements: &mut [u32],
    id: u32,
) -> Result<(), u32> {
    let mut table = Table::look_over(table, slots, elements)?;
    let at = awaits(&table, id, AWAITS_ENTRY)?;
    table.enter(at);
    table.decide(at);
    Ok(())
}

/// Drops the return that waits under an id, accepted or not; the id stays used. Refusal: 11.
pub fn drop(
    table: &mut [u8],
    slots: &mut [Slot],
    elements: &mut [u32],
    id: u32,
) -> Result<(), u32> {
    let mut table = Table::look_over(table, slots, elements)?;
    let at = table.waits(id).ok_or(refusal::STAGE)?;
    table.decide(at);
    Ok(())
}

/// Closes the table when at least Q returns are entered; writes the closing message and gives
/// its length. Order of refusals: 11, 15, 14.
pub fn close(
    table: &mut [u8],
    slots: &mut [Slot],
    elements: &mut [u32],
    out: &mut [u8],
) -> Result<usize, u32> {
    let mut table = Table::look_over(table, slots, elements)?;
    if table.waiting > 0 {
        return Err(refusal::STAGE);
    }
    // "Too few accepted is refused 15, between 11 and 14", where "accepted now reads entered".
    if table.entered < table.least {
        return Err(refusal::FEW);
    }
    let length = 6 + field::WIDTH * table.totals.len();
    let out = out.get_mut(..length).ok_or(refusal::ROOM)?;
    out[0] = CLOSING;
    out[1] = table.own() as u8;
    out[2..6].copy_from_slice(&(table.entered as u32).to_le_bytes());
    out[6..].copy_from_slice(table.totals.as_flattened());
    table.close();
    Ok(length)
}

/// Tells where the pool stands, also of a closed table. Nothing changes. Refusal: 11.
pub fn standing(
    table: &mut [u8],
    slots: &mut [Slot],
    elements: &mut [u32],
) -> Result<Standing, u32> {
    let table = Table::any(table, slots, elements)?;
    Ok(Standing {
        servers: table.servers(),
        own: table.own(),
        limit: table.ids.len() as u32,
        least: table.least as u32,
        closed: table.closed(),
        decided: table.decided as u32,
        entered: table.entered as u32,
        waiting: table.waiting as u32,
    })
}

/// Where the return that waits under an id has its record, when it is at this stage (refusal
/// 11).
fn awaits(table: &Table, id: u32, stage: u32) -> Result<usize, u32> {
    let at = table.waits(id);
    let at = at.filter(|&at| table.slots[at].stage == stage);
    at.ok_or(refusal::STAGE)
}
