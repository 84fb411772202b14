//! Carrying out the calls at the shelf.

use second::gen::Rng;

use super::{wrote, Call, Outcome};
use crate::c;
use crate::guard::{word_size, Lent};

/// Shelving and unshelving have the same arguments.
type Shelf = unsafe extern "C" fn(u32, u32, *const u8, usize, *mut u8, usize, *mut usize) -> u32;

impl Call {
    pub(super) fn shelve(&self, rng: &mut Rng) -> Result<Outcome, String> {
        self.shelf(rng, c::pool_shelve)
    }

    pub(super) fn unshelve(&self, rng: &mut Rng) -> Result<Outcome, String> {
        self.shelf(rng, c::pool_unshelve)
    }

    fn shelf(&self, rng: &mut Rng, function: Shelf) -> Result<Outcome, String> {
        let run = Lent::of("run", &self.message, rng);
        let mut out = Lent::room("out", self.room, rng);
        let mut written = word_size("written", rng);
        let (from, length) = (run.pointer(), run.length());
        let (to, room) = (out.pointer_mut(), out.length());
        let answer = unsafe { function(self.messages, self.width, from, length, to, room, written.pointer()) };
        run.kept()?;
        wrote(answer, &out, &written, &[])
    }
}
