//! The three parts of a table: where everything stands in them, and the look over them.

use super::shape::Shape;
use super::{totals, Slot, AWAITS_ENTRY};
use crate::field::{self, P, WIDTH};
use crate::judging::Findings;
use crate::refusal;
use crate::table::PLACES;

/// An element or an id as it stands in bytes.
pub(super) type Word = [u8; WIDTH];

/// The number that a word stands for.
pub(super) fn value(word: Word) -> u64 {
    u64::from(u32::from_le_bytes(word))
}

/// The byte that a table starts with.
const TABLE: u8 = 3;

// The stages of a table.
const OPEN: u8 = 0;
const CLOSED: u8 = 1;

// Where the parts of the header stand.
const KIND: usize = 0;
const STAGE: usize = 1;
const SERVERS: usize = 2;
const OWN: usize = 3;
const LIMIT: usize = 4;
const DECIDED: usize = 6;
const ENTERED: usize = 8;
const LEAST: usize = 10;
const SHEET: usize = 12;
const HEADER: usize = 14;

/// The length of a table's bytes.
pub(super) fn length(sheet: usize, shape: &Shape, limit: usize) -> usize {
    HEADER + sheet + WIDTH * (shape.published + limit)
}

/// Writes the bytes of a fresh table over all of them; the arguments have been checked.
pub(super) fn write(bytes: &mut [u8], servers: u8, own: u8, sheet: &[u8], limit: u16, least: u16) {
    bytes.fill(0);
    bytes[KIND] = TABLE;
    bytes[STAGE] = OPEN;
    bytes[SERVERS] = servers;
    bytes[OWN] = own;
    bytes[LIMIT..][..2].copy_from_slice(&limit.to_le_bytes());
    bytes[LEAST..][..2].copy_from_slice(&least.to_le_bytes());
    bytes[SHEET..][..2].copy_from_slice(&(sheet.len() as u16).to_le_bytes());
    bytes[HEADER..][..sheet.len()].copy_from_slice(sheet);
}

/// A table that was looked over, part by part.
pub(super) struct Table<'a> {
    header: &'a mut [u8; HEADER],
    pub sheet: &'a [u8],
    pub totals: &'a mut [Word],
    /// N places.
    pub ids: &'a mut [Word],
    pub slots: &'a mut [Slot; PLACES],
    /// The numbers of all eight places.
    numbers: &'a mut [u32],
    pub shape: Shape,
    pub decided: usize,
    pub entered: usize,
    /// Q.
    pub least: usize,
    /// How many records wait.
    pub waiting: usize,
}

impl<'a> Table<'a> {
    /// Takes a table apart and looks it over (refusal 11, also for a closed one). Written into
    /// each call, so that the parts stay in registers.
    #[inline(always)]
    pub fn look_over(
        bytes: &'a mut [u8],
        slots: &'a mut [Slot],
        numbers: &'a mut [u32],
    ) -> Result<Self, u32> {
        match Table::any(bytes, slots, numbers) {
            Ok(table) if table.closed() => Err(refusal::STAGE),
            table => table,
        }
    }

    /// The same for a table that may be closed.
    #[inline(always)]
    pub fn any(
        bytes: &'a mut [u8],
        slots: &'a mut [Slot],
        numbers: &'a mut [u32],
    ) -> Result<Self, u32> {
        let table = Table::parts(bytes, slots, numbers);
        table.filter(Table::sound).ok_or(refusal::STAGE)
    }

    /// The parts of a table; `None` when one is too short, the records are not eight, or the
    /// sheet, N, Q or refusal 4's rule is broken.
    #[inline(always)]
    fn parts(bytes: &'a mut [u8], slots: &'a mut [Slot], numbers: &'a mut [u32]) -> Option<Self> {
        let (header, rest) = bytes.split_first_chunk_mut::<HEADER>()?;
        let limit = usize::from(pair(header, LIMIT));
        let least = usize::from(pair(header, LEAST));
        let (sheet, rest) = rest.split_at_mut_checked(usize::from(pair(header, SHEET)))?;
        let shape = Shape::opening(sheet, limit as u32, least as u32).ok()?;
        let (words, _) = rest.as_chunks_mut();
        let (totals, words) = words.split_at_mut_checked(shape.published)?;
        let slots: &mut [Slot; PLACES] = slots.try_into().ok()?;
        Some(Table {
            decided: usize::from(pair(header, DECIDED)),
            entered: usize::from(pair(header, ENTERED)),
            least,
            waiting: slots.iter().filter(|slot| slot.waits()).count(),
            header,
            sheet,
            totals,
            ids: words.get_mut(..limit)?,
            slots,
            numbers: numbers.get_mut(..shape.run_length())?,
            shape,
        })
    }

    /// Whether the table byte, the server numbers, the stages, the counts and all elements that
    /// are held are within their limits.
    #[inline(always)]
    fn sound(&self) -> bool {
        self.header[KIND] == TABLE
            && self.header[STAGE] <= CLOSED
            && (2..=8).contains(&self.header[SERVERS])
            && self.header[OWN] < self.header[SERVERS]
            && self.entered <= self.decided
            && self.decided + self.waiting <= self.ids.len()
            && field::all_elements(self.totals.as_flattened())
            && self.sound_places()
    }

    /// Whether the records and, where they wait, the numbers of their places are within their
    /// limits.
    #[inline(always)]
    fn sound_places(&self) -> bool {
        let gates = self.shape.gates as u64;
        let places = self.numbers.chunks_exact(self.shape.place());
        let mut waiting = self
            .slots
            .iter()
            .zip(places)
            .filter(|(slot, _)| slot.waits());
        waiting.all(|(slot, place)| {
            slot.stage <= AWAITS_ENTRY
                && (gates + 1..P).contains(&slot.r)
                && slot.s.max(slot.d).max(slot.e) < P
                && field::all_below(place.iter().copied())
        })
    }

    /// The numbers of a place: the elements of the share, then r × h(r) and tau.
    pub fn place(&self, at: usize) -> &[u32] {
        let width = self.shape.place();
        &self.numbers[width * at..][..width]
    }

    pub fn place_mut(&mut self, at: usize) -> &mut [u32] {
        let width = self.shape.place();
        &mut self.numbers[width * at..][..width]
    }

    /// Closes the table.
    pub fn close(&mut self) {
        self.header[STAGE] = CLOSED;
    }

    pub fn closed(&self) -> bool {
        self.header[STAGE] == CLOSED
    }

    pub fn servers(&self) -> u32 {
        u32::from(self.header[SERVERS])
    }

    pub fn own(&self) -> u32 {
        u32::from(self.header[OWN])
    }

    /// Where the return that waits under an id has its record: the first one that does.
    pub fn waits(&self, id: u32) -> Option<usize> {
        let waits = |slot: &Slot| slot.waits() && slot.id == id;
        self.slots.iter().position(waits)
    }

    /// The first free record.
    pub fn free(&self) -> Option<usize> {
        self.slots.iter().position(|slot| !slot.waits())
    }

    pub fn has_decided(&self, id: u32) -> bool {
        // No early exit, as in the look over the elements.
        let ids = self.ids[..self.decided].iter();
        ids.fold(false, |found, &decided| {
            found | (u32::from_le_bytes(decided) == id)
        })
    }

    /// The return of a place is entered: its published entries are added to the totals.
    pub fn enter(&mut self, at: usize) {
        let start = self.shape.place() * at;
        let entries = &self.numbers[start..][..self.shape.entries];
        totals::add_published(self.sheet, &self.shape, self.totals, entries);
        self.entered += 1;
        self.header[ENTERED..][..2].copy_from_slice(&(self.entered as u16).to_le_bytes());
    }

    /// What was found on the share of a place, but for d and e, which are those of its record.
    pub fn findings(&self, at: usize) -> Findings {
        let Slot { d, e, .. } = self.slots[at];
        let last = &self.place(at)[self.shape.elements() - 3..];
        let [a, b, c, rh, tau] = std::array::from_fn(|i| u64::from(last[i]));
        Findings {
            d,
            e,
            rh,
            a,
            b,
            c,
            tau,
        }
    }

    /// The return of a place is decided: its record and its numbers become 0.
    pub fn decide(&mut self, at: usize) {
        self.ids[self.decided] = self.slots[at].id.to_le_bytes();
        self.decided += 1;
        self.header[DECIDED..][..2].copy_from_slice(&(self.decided as u16).to_le_bytes());
        self.slots[at] = Slot::default();
        self.place_mut(at).fill(0);
    }
}

fn pair(header: &[u8; HEADER], at: usize) -> u16 {
    u16::from_le_bytes([header[at], header[at + 1]])
}
