//! Carrying out the calls on a sheet or a circuit, joining, and lines.

use second::gen::Rng;

use super::{found, numbers, wrote, Call, Outcome};
use crate::c;
use crate::guard::{word32, word_signed, word_size, Lent, Word};

/// What a sheet comes to, by the header's names and in its order.
const SIZES: [&str; 9] = [
    "columns",
    "entries",
    "published",
    "wires",
    "multiplications",
    "tests",
    "circuit_bytes",
    "share_bytes",
    "greatest_returns",
];

impl Call {
    pub(super) fn sizes(&self, rng: &mut Rng) -> Result<Outcome, String> {
        let sheet = Lent::of("sheet", &self.sheet, rng);
        let mut words = SIZES.map(|name| word32(name, rng));
        let [p0, p1, p2, p3, p4, p5, p6, p7, p8] = words.each_mut().map(Word::pointer);
        let (from, length) = (sheet.pointer(), sheet.length());
        let answer = unsafe { c::pool_sizes(from, length, p0, p1, p2, p3, p4, p5, p6, p7, p8) };
        sheet.kept()?;
        numbers(answer, &words)
    }

    pub(super) fn circuit(&self, rng: &mut Rng) -> Result<Outcome, String> {
        let sheet = Lent::of("sheet", &self.sheet, rng);
        let mut out = Lent::room("out", self.room, rng);
        let mut written = word_size("written", rng);
        let (to, room) = (out.pointer_mut(), out.length());
        let answer = unsafe { c::pool_circuit(sheet.pointer(), sheet.length(), to, room, written.pointer()) };
        sheet.kept()?;
        wrote(answer, &out, &written, &[])
    }

    pub(super) fn read_circuit(&self, rng: &mut Rng) -> Result<Outcome, String> {
        let circuit = Lent::of("circuit", &self.message, rng);
        let mut words = ["wires", "multiplications", "tests"].map(|name| word32(name, rng));
        let [w0, w1, w2] = &mut words;
        let (p0, p1, p2) = (w0.pointer(), w1.pointer(), w2.pointer());
        let (from, length) = (circuit.pointer(), circuit.length());
        let answer = unsafe { c::pool_read_circuit(self.entries, from, length, p0, p1, p2) };
        circuit.kept()?;
        numbers(answer, &words)
    }

    pub(super) fn every_return(&self, rng: &mut Rng) -> Result<Outcome, String> {
        let sheet = Lent::of("sheet", &self.sheet, rng);
        let mut out = Lent::room("out", self.room, rng);
        let mut lists = word32("lists", rng);
        let mut written = word_size("written", rng);
        let (from, length) = (sheet.pointer(), sheet.length());
        let (to, room) = (out.pointer_mut(), out.length());
        let answer = unsafe { c::pool_every_return(from, length, to, room, lists.pointer(), written.pointer()) };
        sheet.kept()?;
        wrote(answer, &out, &written, &[lists])
    }

    pub(super) fn make(&self, rng: &mut Rng) -> Result<Outcome, String> {
        let sheet = Lent::of("sheet", &self.sheet, rng);
        let values = Lent::of("values", &self.values, rng);
        let random = Lent::of("random", &self.random, rng);
        let mut out = Lent::room("out", self.room, rng);
        let mut written = word_size("written", rng);
        let answer = unsafe {
            c::pool_make(
                sheet.pointer(),
                sheet.length(),
                self.servers,
                self.id,
                values.pointer(),
                values.length(),
                random.pointer(),
                random.length(),
                out.pointer_mut(),
                out.length(),
                written.pointer(),
            )
        };
        sheet.kept()?;
        values.kept()?;
        random.kept()?;
        wrote(answer, &out, &written, &[])
    }

    pub(super) fn make_seeded(&self, rng: &mut Rng) -> Result<Outcome, String> {
        let sheet = Lent::of("sheet", &self.sheet, rng);
        let values = Lent::of("values", &self.values, rng);
        let random = Lent::of("random", &self.random, rng);
        let seeds = Lent::of("seeds", &self.seeds, rng);
        let mut out = Lent::room("out", self.room, rng);
        let mut written = word_size("written", rng);
        let answer = unsafe {
            c::pool_make_seeded(
                sheet.pointer(),
                sheet.length(),
                self.servers,
                self.id,
                values.pointer(),
                values.length(),
                random.pointer(),
                random.length(),
                seeds.pointer(),
                seeds.length(),
                out.pointer_mut(),
                out.length(),
                written.pointer(),
            )
        };
        [&sheet, &values, &random, &seeds].into_iter().try_for_each(Lent::kept)?;
        wrote(answer, &out, &written, &[])
    }

    pub(super) fn join(&self, rng: &mut Rng) -> Result<Outcome, String> {
        let sheet = Lent::of("sheet", &self.sheet, rng);
        let joined = Lent::of("joined", &self.message, rng);
        let mut out = Lent::room("out", self.room, rng);
        let mut accepted = word32("accepted", rng);
        let mut written = word_size("written", rng);
        let answer = unsafe {
            c::pool_join(
                self.servers,
                sheet.pointer(),
                sheet.length(),
                self.returns,
                joined.pointer(),
                joined.length(),
                out.pointer_mut(),
                out.length(),
                accepted.pointer(),
                written.pointer(),
            )
        };
        sheet.kept()?;
        joined.kept()?;
        wrote(answer, &out, &written, &[accepted])
    }

    pub(super) fn line(&self, rng: &mut Rng) -> Result<Outcome, String> {
        let sheet = Lent::of("sheet", &self.sheet, rng);
        let joined = Lent::of("joined", &self.message, rng);
        let mut words = ["determinant", "slope", "intercept"].map(|name| word_signed(name, rng));
        let [p0, p1, p2] = words.each_mut().map(Word::pointer);
        let (from, length) = (sheet.pointer(), sheet.length());
        let (messages, total) = (joined.pointer(), joined.length());
        let answer =
            unsafe { c::pool_line(self.servers, from, length, self.returns, messages, total, self.column, p0, p1, p2) };
        sheet.kept()?;
        joined.kept()?;
        words.iter().try_for_each(|word| word.kept(answer != 0))?;
        let [determinant, slope, intercept] = words.map(|word| word.value());
        Ok(if answer == 0 { found(determinant, slope, intercept) } else { Err(answer) })
    }
}
