//! A second program for the figures pool of document 01 and the further columns and
//! calls of document 02, written from the papers alone.
//!
//! Three forms of the same rules live here:
//!
//! * the plain form, one module for each part of the paper: [`field`], [`sheet`],
//!   [`mod@circuit`], [`mod@sizes`], [`limits`], [`values`], [`listing`], [`making`],
//!   [`chacha`], [`seeds`], [`judging`], [`table`], [`joining`], [`mod@line`],
//!   [`mod@recount`] and [`shelf`];
//! * the fast form, [`fast`], with the same calls and the same answers;
//! * the lent form, [`lent`], with the calls on a table in three parts that the host lends.
//!
//! [`gen`] makes random sheets, values, elements and whole scripts of calls from a
//! seed.
//!
//! Every call answers `Result<_, u32>`, where the error is the number of the
//! refusal (see [`refusal`]). A refused call changes nothing. `room` is the length
//! of the caller's output buffer.

#![forbid(unsafe_code)]
#![warn(missing_docs)]

pub mod chacha;
pub mod circuit;
pub mod fast;
pub mod field;
pub mod gen;
pub mod joining;
pub mod judging;
pub mod lent;
pub mod limits;
pub mod line;
pub mod listing;
pub mod making;
pub mod recount;
pub mod refusal;
pub mod seeds;
pub mod sheet;
pub mod shelf;
pub mod sizes;
pub mod table;
pub mod values;

pub use circuit::{circuit, read_circuit, Circuit, Step};
pub use joining::{join, Joined};
pub use line::{line, Line};
pub use listing::{every_return, Listing};
pub use making::make;
pub use recount::recount;
pub use seeds::make_seeded;
pub use sheet::{Column, Sheet};
pub use shelf::{shelve, unshelve};
pub use sizes::{sizes, Sizes};
pub use table::{
    close, drop, enter, open, round_one, round_two, share, standing, Stage, Standing, Table,
    Verdict, PLACES,
};
