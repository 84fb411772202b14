//! A lent table that checks what each call writes.

use second::gen::{Answer, Call, Server};
use second::lent::{self, Slot, SLOTS};
use second::Verdict;

/// A byte that stands in every buffer before a call, four of them, and a record of them.
pub const FILL: u8 = 0xA5;
pub const FILL_NUMBER: u32 = 0xA5A5_A5A5;
pub const FILL_SLOT: Slot = Slot {
    id: FILL_NUMBER,
    stage: FILL_NUMBER,
    r: u64::MAX,
    s: u64::MAX,
    d: u64::MAX,
    e: u64::MAX,
};
/// Bytes and numbers past a table.
const PAST: usize = 40;
/// The longest output buffer.
pub const LONGEST: usize = 2048;

/// The three parts of a table, bytes and numbers in longer buffers. Every call checks what may
/// be written.
#[derive(Clone, Debug, PartialEq)]
pub struct Lent {
    pub bytes: Vec<u8>,
    pub slots: Vec<Slot>,
    pub numbers: Vec<u32>,
    /// How many bytes and numbers are the table's.
    pub length: usize,
    pub run: usize,
}

impl Lent {
    pub fn open(servers: u32, own: u32, sheet: &[u8], limit: u32, least: u32) -> Result<Lent, u32> {
        let mut bytes = vec![FILL; 7000];
        let mut slots = vec![FILL_SLOT; SLOTS];
        let mut numbers = vec![FILL_NUMBER; 6300];
        let (b, s, n) = (&mut bytes, &mut slots, &mut numbers);
        let opened = lent::open(servers, own, sheet, limit, least, b, s, n);
        let length = *opened.as_ref().unwrap_or(&0);
        let run = opened.and_then(|_| lent::run_length(sheet)).unwrap_or(0);
        assert!(bytes[length..].iter().all(|&byte| byte == FILL));
        assert!(numbers[run..].iter().all(|&number| number == FILL_NUMBER));
        if opened.is_err() {
            assert_eq!(slots, [FILL_SLOT; SLOTS]);
        }
        opened?;
        assert_eq!(lent::length(sheet, limit), Ok(length));
        assert_eq!(slots, [Slot::default(); SLOTS]);
        assert!(numbers[..run].iter().all(|&number| number == 0));
        bytes.truncate(length + PAST);
        numbers.truncate(run + PAST);
        Ok(Lent {
            bytes,
            slots,
            numbers,
            length,
            run,
        })
    }

    /// The record of the return that waits under an id.
    pub fn record(&self, id: u32) -> Option<usize> {
        let waits = |slot: &Slot| slot.stage != 0 && slot.id == id;
        self.slots.iter().position(waits)
    }

    /// The numbers of the place of a record.
    pub fn place(&self, record: usize) -> &[u32] {
        let width = self.run / SLOTS;
        &self.numbers[width * record..][..width]
    }

    /// A call with an output buffer; a refusal changes nothing, and nothing past the written
    /// length is touched.
    fn writes(
        &mut self,
        room: usize,
        call: impl FnOnce(&mut [u8], &mut [Slot], &mut [u32], &mut [u8]) -> Result<usize, u32>,
    ) -> Answer {
        let before = self.clone();
        let mut out = vec![FILL; room.min(LONGEST)];
        let (bytes, slots, numbers) = (&mut self.bytes, &mut self.slots, &mut self.numbers);
        let answer = call(bytes, slots, numbers, &mut out);
        assert_eq!(self.bytes[self.length..], before.bytes[self.length..]);
        assert_eq!(self.numbers[self.run..], before.numbers[self.run..]);
        let written = *answer.as_ref().unwrap_or(&0);
        assert!(out[written..].iter().all(|&byte| byte == FILL));
        match answer {
            Ok(written) => {
                out.truncate(written);
                Answer::Message(out)
            }
            Err(number) => {
                assert_eq!(*self, before);
                Answer::Refused(number)
            }
        }
    }

    /// Carries out a call; a message stands for a verdict, an entry and a drop too.
    fn carry_out(&mut self, call: &Call) -> (Answer, Option<Verdict>) {
        let mut verdict = None;
        let answer = match call {
            Call::Share {
                message,
                r,
                s,
                room,
            } => self.writes(*room, |b, slots, n, out| {
                lent::share(b, slots, n, message, *r, *s, out)
            }),
            Call::RoundOne { id, joined, room } => self.writes(*room, |b, slots, n, out| {
                lent::round_one(b, slots, n, *id, joined, out)
            }),
            Call::RoundTwo { id, joined } => self.writes(0, |b, slots, n, _| {
                verdict = Some(lent::round_two(b, slots, n, *id, joined)?);
                Ok(0)
            }),
            Call::Enter { id } => self.writes(0, |b, slots, n, _| {
                lent::enter(b, slots, n, *id).map(|()| 0)
            }),
            Call::Drop { id } => {
                self.writes(0, |b, slots, n, _| lent::drop(b, slots, n, *id).map(|()| 0))
            }
            Call::Close { room } => self.writes(*room, lent::close),
        };
        (answer, verdict)
    }

    /// What a call that was taken must leave as it was.
    fn check_kept(&self, before: &Lent, call: &Call, verdict: Option<Verdict>) {
        match call {
            Call::Share { .. } => assert_eq!(self.bytes, before.bytes),
            Call::RoundOne { .. } => {
                assert_eq!(self.bytes, before.bytes);
                assert_eq!(self.numbers, before.numbers);
            }
            // An accepted verdict changes the stage of the record alone.
            Call::RoundTwo { id, .. } if verdict == Some(Verdict::Accepted) => {
                let mut slots = before.slots.clone();
                slots[before.record(*id).unwrap()].stage = 3;
                assert_eq!(self.slots, slots);
                assert_eq!(self.bytes, before.bytes);
                assert_eq!(self.numbers, before.numbers);
            }
            Call::RoundTwo { id, .. } | Call::Enter { id } | Call::Drop { id } => {
                let record = before.record(*id).unwrap();
                assert_eq!(self.slots[record], Slot::default());
                assert!(self.place(record).iter().all(|&number| number == 0));
            }
            Call::Close { .. } => {
                assert_eq!(self.slots, before.slots);
                assert_eq!(self.numbers, before.numbers);
                assert_eq!(self.bytes[2..], before.bytes[2..]);
            }
        }
        self.check_others(before, call);
    }

    /// Records and places of other returns stay as they were.
    fn check_others(&self, before: &Lent, call: &Call) {
        let free = |slot: &Slot| slot.stage == 0;
        let own = match call {
            Call::Share { .. } => before.slots.iter().position(free),
            Call::RoundOne { id, .. } | Call::RoundTwo { id, .. } => before.record(*id),
            Call::Enter { id } | Call::Drop { id } => before.record(*id),
            Call::Close { .. } => None,
        };
        for record in (0..SLOTS).filter(|&record| Some(record) != own) {
            assert_eq!(self.slots[record], before.slots[record]);
            assert_eq!(self.place(record), before.place(record));
        }
    }
}

impl Server for Lent {
    fn call(&mut self, call: &Call) -> Answer {
        let before = self.clone();
        let (answer, verdict) = self.carry_out(call);
        if let Answer::Refused(_) = answer {
            return answer;
        }
        self.check_kept(&before, call, verdict);
        match (call, verdict) {
            (Call::RoundTwo { .. }, Some(verdict)) => Answer::Verdict(verdict),
            (Call::Enter { .. }, _) => Answer::Entered,
            (Call::Drop { .. }, _) => Answer::Dropped,
            _ => answer,
        }
    }
}
