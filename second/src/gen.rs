//! Random material from a seed: sheets, circuits, values, elements, returns honest and
//! not, single calls ([`Case`]) and whole scripts of calls at S servers ([`Script`]).
//!
//! Everything here is plain data. Cases and scripts carry the plain form's answers, so
//! that another implementation can be played against them. The same seed always gives
//! the same data.

mod any;
mod cases;
mod circuits;
mod closings;
mod hex;
mod returns;
mod rng;
mod scripts;
mod sheets;

pub use cases::{Case, CaseAnswer, Exchange, Fit, Seeded, Shelf};
pub use circuits::{circuit, damaged_circuit};
pub use hex::Hex;
pub use returns::{added_up, elements_of, lets_in, pair, Origin, Return};
pub use rng::Rng;
pub use scripts::{Answer, Call, Script, Server, Step};
pub use sheets::{
    damaged_elements, damaged_sheet, damaged_values, elements, largest_limit, sheet, small_sheet,
    values,
};
