//! The records of the waiting list.

use crate::table::PLACES;

/// A record of the waiting list.
#[repr(C)]
#[derive(Clone, Copy, Debug, Default, PartialEq, Eq)]
pub struct Slot {
    /// The id that waits.
    pub id: u32,
    /// [`FREE`], [`AWAITS_ONE`], [`AWAITS_TWO`] or [`AWAITS_ENTRY`].
    pub stage: u32,
    /// The challenge r.
    pub r: u64,
    /// The challenge s.
    pub s: u64,
    /// The own d_i before round one, the sum d after it.
    pub d: u64,
    /// The own e_i before round one, the sum e after it.
    pub e: u64,
}

impl Slot {
    /// Whether a return waits in this record.
    pub(super) fn waits(&self) -> bool {
        self.stage != FREE
    }
}

/// The number of records.
pub const SLOTS: usize = PLACES;

/// The stage of a free record.
pub const FREE: u32 = 0;
/// The stage of a record whose return awaits round one.
pub const AWAITS_ONE: u32 = 1;
/// The stage of a record whose return awaits round two.
pub const AWAITS_TWO: u32 = 2;
/// The stage of a record whose return is accepted and awaits entry.
pub const AWAITS_ENTRY: u32 = 3;
