//! The fast form: the same calls and the same answers as the plain form, with the
//! arithmetic made fast.
//!
//! A server's work on a share is O(L + M): the Lagrange basis at r comes from running
//! products from both ends and from weights fixed at opening, the wires from the columns
//! instead of the steps. Making a return is O(M^2) multiply-adds.
//!
//! What needs no speeding up (the readers, the rounds, closing, joining) is that of the
//! plain form.

pub(crate) mod arithmetic;
mod columns;
pub(crate) mod constants;
mod making;
mod plan;
pub(crate) mod seeds;

pub use crate::circuit::{circuit, read_circuit};
pub use crate::joining::join;
pub use crate::line::{line, Line};
pub use crate::listing::{every_return, Listing};
pub use crate::recount::recount;
pub use crate::shelf::{shelve, unshelve};
pub use crate::sizes::{sizes, Sizes};
pub use crate::table::{
    close, drop, enter, round_one, round_two, share, standing, Stage, Standing,
};
pub use making::make;
pub use seeds::make_seeded;

/// A server's table in the fast form.
pub type Table = crate::table::Table<plan::Plan>;

/// Opens a table with S, the own number, a sheet, N and the least count Q. Order of
/// refusals: S and own number, sheet, N, Q, 4.
pub fn open(servers: u32, own: u32, sheet: &[u8], limit: u32, least: u32) -> Result<Table, u32> {
    crate::table::open_as(servers, own, sheet, limit, least)
}
