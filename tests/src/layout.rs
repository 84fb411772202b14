//! The three parts of a table as the heads of crates/rules/specs/Table.antt and WaitingList.antt lay them out, and which
//! tables are sound.

use second::field::P;
use second::Sheet;

pub use crate::c::pool_slot as Slot;

/// The first byte of a table.
pub const TABLE: u8 = 3;
/// The stages of a table.
pub const OPEN: u8 = 0;
pub const CLOSED: u8 = 1;
/// The stages of a record.
pub const FREE: u32 = 0;
pub const AWAITS_ONE: u32 = 1;
pub const AWAITS_TWO: u32 = 2;
pub const AWAITS_ENTRY: u32 = 3;
/// The records of a table.
pub const SLOTS: usize = 8;

/// A table as a host keeps it.
#[derive(Clone, Debug, Default, PartialEq, Eq)]
pub struct Parts {
    pub bytes: Vec<u8>,
    pub slots: Vec<Slot>,
    pub elements: Vec<u32>,
}

impl Parts {
    /// How many records are not free.
    pub fn waiting(&self) -> usize {
        self.slots.iter().filter(|slot| slot.stage != FREE).count()
    }

    /// The record of an id: the first that is not free and has it.
    pub fn record(&self, id: u32) -> Option<usize> {
        self.slots.iter().position(|slot| slot.stage != FREE && slot.id == id)
    }

    /// A copy with a change.
    pub fn with(&self, change: impl Fn(&mut Parts)) -> Parts {
        let mut parts = self.clone();
        change(&mut parts);
        parts
    }
}

/// Where everything stands that depends on the sheet and N. The sheet itself stands at byte 14.
#[derive(Clone, Copy, Debug)]
pub struct Places {
    pub totals: usize,
    pub ids: usize,
    /// The length of the bytes.
    pub length: usize,
    /// The elements of a share; r × h(r) and tau stand after them.
    pub share: usize,
    /// The numbers of a record's place.
    pub place: usize,
    /// The length of the run of numbers.
    pub run: usize,
}

pub fn places(sheet_length: usize, sheet: &Sheet, returns: usize) -> Places {
    let totals = 14 + sheet_length;
    let ids = totals + 4 * sheet.published();
    let share = sheet.entries() + 2 * sheet.multiplications() + 6;
    Places { totals, ids, length: ids + 4 * returns, share, place: share + 2, run: SLOTS * (share + 2) }
}

/// The length of the run of numbers with this sheet; 0 where the sheet is refused.
pub fn run_length(sheet: &[u8]) -> usize {
    Sheet::read(sheet).map_or(0, |read| places(sheet.len(), &read, 1).run)
}

/// The 2-byte number at a place.
pub fn short(bytes: &[u8], at: usize) -> usize {
    usize::from(bytes[at]) + 256 * usize::from(bytes[at + 1])
}

/// The 4-byte number at a place.
pub fn word(bytes: &[u8], at: usize) -> u64 {
    bytes[at..at + 4].iter().rev().fold(0, |number, &byte| 256 * number + u64::from(byte))
}

/// The id of a message.
pub fn id_of(message: &[u8]) -> u32 {
    word(message, 1) as u32
}

/// Writes a 4-byte number at a place.
pub fn put_word(bytes: &mut [u8], at: usize, number: u64) {
    bytes[at..at + 4].copy_from_slice(&(number as u32).to_le_bytes());
}

/// Writes a 2-byte number at a place.
pub fn put_short(bytes: &mut [u8], at: usize, number: usize) {
    bytes[at..at + 2].copy_from_slice(&(number as u16).to_le_bytes());
}

/// So many 4-byte numbers from a place on.
pub fn words(bytes: &[u8], at: usize, count: usize) -> Vec<u64> {
    (0..count).map(|k| word(bytes, at + 4 * k)).collect()
}

/// What the header and the sheet of a sound table say.
#[derive(Clone, Debug)]
pub struct Table {
    pub closed: bool,
    pub servers: u32,
    pub own: u32,
    pub returns: usize,
    pub decided: usize,
    pub entered: usize,
    pub least: usize,
    pub bytes: Vec<u8>,
    pub sheet: Sheet,
    pub at: Places,
}

impl Table {
    /// The numbers of a record's place.
    pub fn place<'a>(&self, parts: &'a Parts, record: usize) -> &'a [u32] {
        &parts.elements[record * self.at.place..][..self.at.place]
    }

    pub fn place_mut<'a>(&self, parts: &'a mut Parts, record: usize) -> &'a mut [u32] {
        &mut parts.elements[record * self.at.place..][..self.at.place]
    }

    /// Whether a record and its place are all 0.
    pub fn empty(&self, parts: &Parts, record: usize) -> bool {
        parts.slots[record] == Slot::default() && self.place(parts, record).iter().all(|&number| number == 0)
    }
}

/// The table at the start of a slice; `None` where its header or its sheet is not sound.
fn header(slice: &[u8]) -> Option<Table> {
    if slice.len() < 14 || slice[0] != TABLE || slice[1] > CLOSED {
        return None;
    }
    let (servers, own) = (u32::from(slice[2]), u32::from(slice[3]));
    let (returns, least, length) = (short(slice, 4), short(slice, 10), short(slice, 12));
    let numbers = (2..=8).contains(&servers) && own < servers;
    if !numbers || !(1..=1024).contains(&returns) || !(1..=returns).contains(&least) {
        return None;
    }
    let bytes = slice.get(14..14 + length)?.to_vec();
    let sheet = Sheet::read(&bytes).ok()?;
    let at = places(length, &sheet, returns);
    let (decided, entered) = (short(slice, 6), short(slice, 8));
    Some(Table { closed: slice[1] == CLOSED, servers, own, returns, decided, entered, least, bytes, sheet, at })
}

/// Every part has its length, and the counts are sound.
fn counts(table: &Table, parts: &Parts) -> bool {
    let fits = table.sheet.columns().iter().all(|column| table.returns as u64 * column.largest() < P);
    let long = parts.bytes.len() >= table.at.length && parts.elements.len() >= table.at.run;
    let taken = table.decided + parts.waiting();
    fits && long && parts.slots.len() == SLOTS && taken <= table.returns && table.entered <= table.decided
}

/// A record is free, or awaits a round or entry with r and s in range and all its other numbers below p.
fn record(table: &Table, parts: &Parts, number: usize) -> bool {
    let slot = parts.slots[number];
    let numbers = || table.place(parts, number).iter().all(|&number| u64::from(number) < P);
    let range = || slot.r > table.sheet.multiplications() as u64 && slot.r < P;
    match slot.stage {
        FREE => true,
        AWAITS_ONE..=AWAITS_ENTRY => range() && [slot.s, slot.d, slot.e].iter().all(|&x| x < P) && numbers(),
        _ => false,
    }
}

/// The table in three parts; `None` where it breaks a limit (refusal 11). Free are the ids past those decided, which ids
/// were decided, what a free record holds besides its stage, the numbers of its place, an id that waits twice or is
/// decided too, and whether d, e, r × h(r) and tau belong to the share; so is all that lies past the parts' lengths.
pub fn sound(parts: &Parts) -> Option<Table> {
    let table = header(&parts.bytes)?;
    if !counts(&table, parts) {
        return None;
    }
    let totals = words(&parts.bytes, table.at.totals, table.sheet.published());
    let good = totals.iter().all(|&total| total < P) && (0..SLOTS).all(|number| record(&table, parts, number));
    good.then_some(table)
}

/// What a table that the library wrote says.
pub fn read(parts: &Parts) -> Result<Table, String> {
    sound(parts).ok_or_else(|| "a table that the library wrote is not sound".to_string())
}

/// The parts of a table that was just opened.
pub fn opened(servers: u32, own: u32, bytes: &[u8], sheet: &Sheet, returns: u32, least: u32) -> Parts {
    let at = places(bytes.len(), sheet, returns as usize);
    let mut table = vec![0; at.length];
    table[..4].copy_from_slice(&[TABLE, OPEN, servers as u8, own as u8]);
    put_short(&mut table, 4, returns as usize);
    put_short(&mut table, 10, least as usize);
    put_short(&mut table, 12, bytes.len());
    table[14..14 + bytes.len()].copy_from_slice(bytes);
    Parts { bytes: table, slots: vec![Slot::default(); SLOTS], elements: vec![0; at.run] }
}
