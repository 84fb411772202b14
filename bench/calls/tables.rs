// A server's table on each of three sides: the library's, and those of the second program's fast and lent forms. The
// library's and the lent one are three lent parts (bytes, records, numbers), which every call looks over before it trusts
// them, as document 01 asks (refusal 11); their messages are written into lent buffers. The fast one is a structure that
// nobody else can write, so its calls do not look it over; it has weights worked out at opening and keeps work space.
use crate::pool;
use crate::setting::{Setting, LEAST, LIMIT, ONE_BYTES, TWO_BYTES};
use second::{fast, lent, Verdict};
use std::borrow::Cow;

pub trait Table: Sized {
    // A table of server `own`, in new memory.
    fn fresh(x: &Setting, own: u32) -> Result<Self, u32>;
    // The table of server 0 opened in the place of another, whose memory is used again or given back later.
    fn open(&mut self, x: &Setting) -> Option<Self>;
    fn share(&mut self, message: &[u8], r: u64, s: u64) -> Result<[u8; ONE_BYTES], u32>;
    fn round_one(&mut self, id: u32, joined: &[u8]) -> Result<[u8; TWO_BYTES], u32>;
    // Whether the return is accepted.
    fn round_two(&mut self, id: u32, joined: &[u8]) -> Result<bool, u32>;
    fn enter(&mut self, id: u32) -> Result<(), u32>;
    fn drop(&mut self, id: u32) -> Result<(), u32>;
    // The totals message, in the lent buffer or in a list of its own.
    fn close<'a>(&mut self, out: &'a mut [u8]) -> Result<Cow<'a, [u8]>, u32>;
    fn restore(&mut self, from: &Self);
}

// A table in three parts, with the calls of a module on it. They differ in how they tell a verdict.
macro_rules! table_in_parts {
    ($name:ident, $calls:ident, $accepted:expr) => {
        #[derive(Clone)]
        pub struct $name {
            pub bytes: Vec<u8>,
            pub slots: [$calls::Slot; 8],
            pub elements: Vec<u32>,
        }

        impl Table for $name {
            fn fresh(x: &Setting, own: u32) -> Result<$name, u32> {
                let (bytes, elements) = (vec![0; x.table_bytes(LIMIT as usize)], vec![0; x.numbers()]);
                let mut t = $name { bytes, slots: Default::default(), elements };
                let (b, s, e) = (&mut t.bytes, &mut t.slots, &mut t.elements);
                let written = $calls::open(x.servers, own, &x.sheet, LIMIT, LEAST, b, s, e)?;
                assert!(written == t.bytes.len());
                Ok(t)
            }

            fn open(&mut self, x: &Setting) -> Option<$name> {
                let (b, s, e) = (&mut self.bytes, &mut self.slots, &mut self.elements);
                $calls::open(x.servers, 0, &x.sheet, LIMIT, LEAST, b, s, e).expect("opened");
                None
            }

            fn share(&mut self, message: &[u8], r: u64, s: u64) -> Result<[u8; ONE_BYTES], u32> {
                let mut out = [0; ONE_BYTES];
                $calls::share(&mut self.bytes, &mut self.slots, &mut self.elements, message, r, s, &mut out)?;
                Ok(out)
            }

            fn round_one(&mut self, id: u32, joined: &[u8]) -> Result<[u8; TWO_BYTES], u32> {
                let mut out = [0; TWO_BYTES];
                $calls::round_one(&mut self.bytes, &mut self.slots, &mut self.elements, id, joined, &mut out)?;
                Ok(out)
            }

            fn round_two(&mut self, id: u32, joined: &[u8]) -> Result<bool, u32> {
                $calls::round_two(&mut self.bytes, &mut self.slots, &mut self.elements, id, joined).map($accepted)
            }

            fn enter(&mut self, id: u32) -> Result<(), u32> {
                $calls::enter(&mut self.bytes, &mut self.slots, &mut self.elements, id)
            }

            fn drop(&mut self, id: u32) -> Result<(), u32> {
                $calls::drop(&mut self.bytes, &mut self.slots, &mut self.elements, id)
            }

            fn close<'a>(&mut self, out: &'a mut [u8]) -> Result<Cow<'a, [u8]>, u32> {
                let written = $calls::close(&mut self.bytes, &mut self.slots, &mut self.elements, out)?;
                Ok(Cow::Borrowed(&out[..written]))
            }

            fn restore(&mut self, from: &$name) {
                self.bytes.copy_from_slice(&from.bytes);
                self.slots = from.slots;
                self.elements.copy_from_slice(&from.elements);
            }
        }
    };
}

fn accepted(verdict: Verdict) -> bool {
    verdict == Verdict::Accepted
}

table_in_parts!(Ours, pool, |accepted| accepted);
table_in_parts!(Lent, lent, accepted);

impl Table for fast::Table {
    fn fresh(x: &Setting, own: u32) -> Result<fast::Table, u32> {
        fast::open(x.servers, own, &x.sheet, LIMIT, LEAST)
    }

    fn open(&mut self, x: &Setting) -> Option<fast::Table> {
        Some(fast::Table::fresh(x, 0).expect("opened"))
    }

    fn share(&mut self, message: &[u8], r: u64, s: u64) -> Result<[u8; ONE_BYTES], u32> {
        fast::share(self, message, r, s, ONE_BYTES)
    }

    fn round_one(&mut self, id: u32, joined: &[u8]) -> Result<[u8; TWO_BYTES], u32> {
        fast::round_one(self, id, joined, TWO_BYTES)
    }

    fn round_two(&mut self, id: u32, joined: &[u8]) -> Result<bool, u32> {
        fast::round_two(self, id, joined).map(accepted)
    }

    fn enter(&mut self, id: u32) -> Result<(), u32> {
        fast::enter(self, id)
    }

    fn drop(&mut self, id: u32) -> Result<(), u32> {
        fast::drop(self, id)
    }

    fn close<'a>(&mut self, out: &'a mut [u8]) -> Result<Cow<'a, [u8]>, u32> {
        fast::close(self, out.len()).map(Cow::Owned)
    }

    fn restore(&mut self, from: &fast::Table) {
        *self = from.clone();
    }
}
