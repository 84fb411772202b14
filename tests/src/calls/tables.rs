//! Carrying out opening and the calls on a table.

use second::gen::Rng;

use super::{numbers, wrote, Call, Outcome};
use crate::c;
use crate::guard::{word32, word_size, Item, Lent};
use crate::layout::{run_length, Parts, Slot};

/// A part of a table, lent. One that the header has as const is kept whatever the answer is.
struct Part<T> {
    lent: Lent<T>,
    constant: bool,
}

impl<T: Item> Part<T> {
    fn read(name: &'static str, content: &[T], rng: &mut Rng) -> Part<T> {
        Part { lent: Lent::of(name, content, rng), constant: true }
    }

    fn held(name: &'static str, content: &[T], rng: &mut Rng) -> Part<T> {
        Part { lent: Lent::held(name, content, rng), constant: false }
    }

    /// The part after the call; a refused call leaves it as it was.
    fn after(&self, refused: bool) -> Result<Vec<T>, String> {
        let length = self.lent.length();
        self.lent.kept_past(if refused || self.constant { 0 } else { length })?;
        Ok(self.lent.items(length))
    }
}

/// A function that takes a table and an id.
type ById = unsafe extern "C" fn(*mut u8, usize, *mut Slot, usize, *mut u32, usize, u32) -> u32;

/// Adds the table after the call.
fn on_table(
    mut outcome: Outcome,
    bytes: &Part<u8>,
    slots: &Part<Slot>,
    elements: &Part<u32>,
) -> Result<Outcome, String> {
    let refused = outcome.is_err();
    let table =
        Parts { bytes: bytes.after(refused)?, slots: slots.after(refused)?, elements: elements.after(refused)? };
    if let Ok(done) = &mut outcome {
        done.table = table;
    }
    Ok(outcome)
}

impl Call {
    pub(super) fn open(&self, rng: &mut Rng) -> Result<Outcome, String> {
        let sheet = Lent::of("sheet", &self.sheet, rng);
        let mut table = Lent::room("table", self.room, rng);
        let mut slots: Lent<Slot> = Lent::room("slots", self.slots, rng);
        let mut elements: Lent<u32> = Lent::room("elements", self.elements, rng);
        let mut written = word_size("written", rng);
        let answer = unsafe {
            c::pool_open(
                self.servers,
                self.own,
                sheet.pointer(),
                sheet.length(),
                self.returns,
                self.least,
                table.pointer_mut(),
                table.length(),
                slots.pointer_mut(),
                slots.length(),
                elements.pointer_mut(),
                elements.length(),
                written.pointer(),
            )
        };
        sheet.kept()?;
        let mut outcome = wrote(answer, &table, &written, &[])?;
        let (all, run) = match outcome {
            Err(_) => (0, 0),
            Ok(_) => (slots.length(), run_length(&self.sheet).min(elements.length())),
        };
        slots.kept_past(all)?;
        elements.kept_past(run)?;
        if let Ok(done) = &mut outcome {
            let bytes = std::mem::take(&mut done.bytes);
            done.table = Parts { bytes, slots: slots.items(all), elements: elements.items(run) };
        }
        Ok(outcome)
    }

    pub(super) fn share(&self, rng: &mut Rng) -> Result<Outcome, String> {
        let table = Part::read("table", &self.table.bytes, rng);
        let mut slots = Part::held("slots", &self.table.slots, rng);
        let mut elements = Part::held("elements", &self.table.elements, rng);
        let message = Lent::of("message", &self.message, rng);
        let mut out = Lent::room("out", self.room, rng);
        let mut written = word_size("written", rng);
        let answer = unsafe {
            c::pool_share(
                table.lent.pointer(),
                table.lent.length(),
                slots.lent.pointer_mut(),
                slots.lent.length(),
                elements.lent.pointer_mut(),
                elements.lent.length(),
                message.pointer(),
                message.length(),
                self.r,
                self.s,
                out.pointer_mut(),
                out.length(),
                written.pointer(),
            )
        };
        message.kept()?;
        on_table(wrote(answer, &out, &written, &[])?, &table, &slots, &elements)
    }

    pub(super) fn round_one(&self, rng: &mut Rng) -> Result<Outcome, String> {
        let table = Part::read("table", &self.table.bytes, rng);
        let mut slots = Part::held("slots", &self.table.slots, rng);
        let elements = Part::read("elements", &self.table.elements, rng);
        let joined = Lent::of("joined", &self.message, rng);
        let mut out = Lent::room("out", self.room, rng);
        let mut written = word_size("written", rng);
        let answer = unsafe {
            c::pool_round_one(
                table.lent.pointer(),
                table.lent.length(),
                slots.lent.pointer_mut(),
                slots.lent.length(),
                elements.lent.pointer(),
                elements.lent.length(),
                self.id,
                joined.pointer(),
                joined.length(),
                out.pointer_mut(),
                out.length(),
                written.pointer(),
            )
        };
        joined.kept()?;
        on_table(wrote(answer, &out, &written, &[])?, &table, &slots, &elements)
    }

    pub(super) fn round_two(&self, rng: &mut Rng) -> Result<Outcome, String> {
        let mut table = Part::held("table", &self.table.bytes, rng);
        let mut slots = Part::held("slots", &self.table.slots, rng);
        let mut elements = Part::held("elements", &self.table.elements, rng);
        let joined = Lent::of("joined", &self.message, rng);
        let mut accepted = word32("accepted", rng);
        let answer = unsafe {
            c::pool_round_two(
                table.lent.pointer_mut(),
                table.lent.length(),
                slots.lent.pointer_mut(),
                slots.lent.length(),
                elements.lent.pointer_mut(),
                elements.lent.length(),
                self.id,
                joined.pointer(),
                joined.length(),
                accepted.pointer(),
            )
        };
        joined.kept()?;
        on_table(numbers(answer, &[accepted])?, &table, &slots, &elements)
    }

    /// Entering or dropping: a call on a table that names an id and no more.
    pub(super) fn by_id(&self, rng: &mut Rng, function: ById) -> Result<Outcome, String> {
        let mut table = Part::held("table", &self.table.bytes, rng);
        let mut slots = Part::held("slots", &self.table.slots, rng);
        let mut elements = Part::held("elements", &self.table.elements, rng);
        let answer = unsafe {
            function(
                table.lent.pointer_mut(),
                table.lent.length(),
                slots.lent.pointer_mut(),
                slots.lent.length(),
                elements.lent.pointer_mut(),
                elements.lent.length(),
                self.id,
            )
        };
        on_table(numbers(answer, &[])?, &table, &slots, &elements)
    }

    pub(super) fn close(&self, rng: &mut Rng) -> Result<Outcome, String> {
        let mut table = Part::held("table", &self.table.bytes, rng);
        let slots = Part::read("slots", &self.table.slots, rng);
        let elements = Part::read("elements", &self.table.elements, rng);
        let mut out = Lent::room("out", self.room, rng);
        let mut written = word_size("written", rng);
        let answer = unsafe {
            c::pool_close(
                table.lent.pointer_mut(),
                table.lent.length(),
                slots.lent.pointer(),
                slots.lent.length(),
                elements.lent.pointer(),
                elements.lent.length(),
                out.pointer_mut(),
                out.length(),
                written.pointer(),
            )
        };
        on_table(wrote(answer, &out, &written, &[])?, &table, &slots, &elements)
    }

    pub(super) fn state(&self, rng: &mut Rng) -> Result<Outcome, String> {
        let table = Part::read("table", &self.table.bytes, rng);
        let slots = Part::read("slots", &self.table.slots, rng);
        let elements = Part::read("elements", &self.table.elements, rng);
        let names = ["servers", "own", "returns", "least", "closed", "decided", "entered", "waiting"];
        let mut words = names.map(|name| word32(name, rng));
        let [servers, own, returns, least, closed, decided, entered, waiting] = &mut words;
        let answer = unsafe {
            c::pool_state(
                table.lent.pointer(),
                table.lent.length(),
                slots.lent.pointer(),
                slots.lent.length(),
                elements.lent.pointer(),
                elements.lent.length(),
                servers.pointer(),
                own.pointer(),
                returns.pointer(),
                least.pointer(),
                closed.pointer(),
                decided.pointer(),
                entered.pointer(),
                waiting.pointer(),
            )
        };
        on_table(numbers(answer, &words)?, &table, &slots, &elements)
    }
}
