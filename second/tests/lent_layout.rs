//! The three parts of a lent table after every call, number for number.

mod common;

use common::twins::Twins;
use common::*;
use second::field;
use second::gen::{elements_of, Answer, Call, Script, Server};
use second::lent::Slot;
use second::{round_one, Sheet, Table, Verdict};

/// What the parts must hold, from the calls and their answers alone.
struct Model {
    servers: u32,
    own: u32,
    sheet: Sheet,
    bytes: Vec<u8>,
    slots: [Slot; 8],
    numbers: Vec<u32>,
}

impl Model {
    fn open(script: &Script, own: u32) -> Model {
        let sheet = Sheet::read(&script.sheet).unwrap();
        let mut bytes = vec![3, 0, script.servers as u8, own as u8];
        bytes.extend((script.limit as u16).to_le_bytes());
        bytes.extend([0; 4]);
        bytes.extend((script.least as u16).to_le_bytes());
        bytes.extend((script.sheet.len() as u16).to_le_bytes());
        bytes.extend(&script.sheet);
        let end = bytes.len() + 4 * (sheet.published() + script.limit as usize);
        Model {
            servers: script.servers,
            own,
            bytes: resized(&bytes, end),
            slots: [Slot::default(); 8],
            numbers: vec![0; 8 * (sheet.share_elements() + 2)],
            sheet,
        }
    }

    fn width(&self) -> usize {
        self.sheet.share_elements() + 2
    }

    /// Adds 1 to a count of 2 bytes; gives what it was.
    fn count(&mut self, at: usize) -> usize {
        let old = u16::from_le_bytes([self.bytes[at], self.bytes[at + 1]]);
        self.bytes[at..at + 2].copy_from_slice(&(old + 1).to_le_bytes());
        usize::from(old)
    }

    fn record(&self, id: u32) -> usize {
        let waits = |slot: &Slot| slot.stage != 0 && slot.id == id;
        self.slots.iter().position(waits).unwrap()
    }

    /// Notes a call that was taken; the plain table is as the call left it.
    fn note(&mut self, call: &Call, answer: &Answer, plain: &Table) {
        match call {
            Call::Share { message, r, s, .. } => self.note_share(message, *r, *s, plain),
            Call::RoundOne { id, joined, .. } => {
                let slot = self.record(*id);
                let slot = &mut self.slots[slot];
                slot.stage = 2;
                (slot.d, slot.e) = sums(joined);
            }
            Call::RoundTwo { id, .. } if *answer == Answer::Verdict(Verdict::Accepted) => {
                let record = self.record(*id);
                self.slots[record].stage = 3;
            }
            Call::RoundTwo { id, .. } => self.decide(*id),
            Call::Enter { id } => {
                self.enter(*id);
                self.decide(*id);
            }
            Call::Drop { id } => self.decide(*id),
            Call::Close { .. } => self.bytes[1] = 1,
        }
    }

    fn note_share(&mut self, message: &[u8], r: u64, s: u64, plain: &Table) {
        let id = id_of(message);
        let free = self.slots.iter().position(|slot| slot.stage == 0).unwrap();
        let (d, e) = pair_of(plain.waiting_message(id).unwrap());
        let elements = elements_of(&self.sheet, message).unwrap();
        let (rh, tau) = self.found(&elements, id, plain);
        self.slots[free] = Slot {
            id,
            stage: 1,
            r,
            s,
            d,
            e,
        };
        let width = self.width();
        let place = &mut self.numbers[width * free..][..width];
        let all = elements.iter().chain([&rh, &tau]);
        for (number, &element) in place.iter_mut().zip(all) {
            *number = element as u32;
        }
    }

    /// r × h(r) and tau, from the round two message that the plain form writes when the others'
    /// d and e are 0: sigma = d × b + e × a + c - r × h(r), plus d × e at server 0.
    fn found(&self, elements: &[u64], id: u32, plain: &Table) -> (u64, u64) {
        let message = plain.waiting_message(id).unwrap();
        let mut joined = message.repeat(self.servers as usize);
        for (server, place) in joined.chunks_mut(ONE_BYTES).enumerate() {
            place[5] = server as u8;
            if server != self.own as usize {
                place[6..14].fill(0);
            }
        }
        let (d, e) = pair_of(message);
        let second = round_one(&mut plain.clone(), id, &joined, TWO_BYTES).unwrap();
        let (sigma, tau) = pair_of(&second);
        let [.., a, b, c] = elements[..] else {
            panic!("too few elements");
        };
        let mut rh = field::sum([field::mul(d, b), field::mul(e, a), c]);
        if self.own == 0 {
            rh = field::add(rh, field::mul(d, e));
        }
        (field::sub(rh, sigma), tau)
    }

    fn enter(&mut self, id: u32) {
        let place = self.width() * self.record(id);
        let mut at = 14 + self.bytes[12] as usize + 256 * self.bytes[13] as usize;
        for entry in self.sheet.published_entries() {
            let old = u32::from_le_bytes(self.bytes[at..at + 4].try_into().unwrap());
            let sum = field::add(u64::from(old), u64::from(self.numbers[place + entry]));
            self.bytes[at..at + 4].copy_from_slice(&(sum as u32).to_le_bytes());
            at += 4;
        }
        self.count(8);
    }

    fn decide(&mut self, id: u32) {
        let limit = self.bytes[4] as usize + 256 * self.bytes[5] as usize;
        let ids = self.bytes.len() - 4 * limit;
        let at = ids + 4 * self.count(6);
        self.bytes[at..at + 4].copy_from_slice(&id.to_le_bytes());
        let (record, width) = (self.record(id), self.width());
        self.slots[record] = Slot::default();
        self.numbers[width * record..][..width].fill(0);
    }

    fn check(&self, twins: &Twins) {
        let lent = &twins.lent;
        assert_eq!(lent.bytes[..lent.length], self.bytes);
        assert_eq!(lent.slots, self.slots);
        assert_eq!(lent.numbers[..lent.run], self.numbers);
    }
}

#[test]
fn parts_after_every_call() {
    for seed in 7000..7150 {
        let script = Script::random(seed);
        let mut tables = Twins::of_script(&script);
        let models = (0..script.servers).map(|own| Model::open(&script, own));
        let mut models: Vec<Model> = models.collect();
        for (table, model) in tables.iter().zip(&models) {
            model.check(table);
        }
        for step in &script.steps {
            let server = step.server as usize;
            let (table, model) = (&mut tables[server], &mut models[server]);
            let answer = table.call(&step.call);
            assert_eq!(answer, step.answer, "seed {seed}");
            if !matches!(answer, Answer::Refused(_)) {
                model.note(&step.call, &answer, &table.plain);
            }
            model.check(table);
        }
    }
}

/// No run is longer than 6,208 numbers, no bytes than told.
#[test]
fn longest_parts() {
    let length = |sheet: &[u8]| second::lent::length(sheet, 1024).unwrap();
    assert_eq!(second::lent::run_length(&[17; 256]), Ok(6208));
    assert_eq!(second::lent::run_length(&largest_sheet()).unwrap() % 8, 0);
    assert_eq!(length(&[17; 256]), 14 + 256 + 4 * 256 + 4096);
    assert_eq!(length(&longest_sheet()), 14 + 426 + 4 * 86 + 4096);
    assert_eq!(std::mem::size_of::<Slot>(), 40);
    assert_eq!(std::mem::align_of::<Slot>(), 8);
}
