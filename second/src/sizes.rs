//! Room told from the sheet.
//!
//! "From the sheet's bytes alone, give entries, published entries, wires, multiplications,
//! tests, circuit bytes, share message bytes, and the greatest N that opens." Here the numbers
//! are counted off the circuit, built and read again, and N is found by trying.

use crate::circuit::{circuit, read_circuit};
use crate::field;
use crate::limits::{check_limit, MAX_LIMIT};
use crate::sheet::Sheet;

/// What a sheet comes to.
#[derive(Clone, Copy, Debug, PartialEq, Eq)]
pub struct Sizes {
    /// Columns.
    pub columns: usize,
    /// L, the entries.
    pub entries: usize,
    /// Published entries.
    pub published: usize,
    /// Wires of the circuit, wire 0 included.
    pub wires: usize,
    /// M, the multiplications.
    pub multiplications: usize,
    /// K, the tests.
    pub tests: usize,
    /// The length of the circuit.
    pub circuit_bytes: usize,
    /// The length of a share message.
    pub share_bytes: usize,
    /// The greatest N that opens, at most 1,024.
    pub greatest_limit: u32,
}

/// What a sheet comes to. "Sheet faults are refused as in reading."
pub fn sizes(sheet: &[u8]) -> Result<Sizes, u32> {
    let read = Sheet::read(sheet)?;
    // "These are the very numbers of the circuit that would be built."
    let bytes = circuit(sheet, usize::MAX)?;
    let built = read_circuit(read.entries() as u32, &bytes)?;
    // "A share has L + 2M + 6 elements"; before them kind byte, id and server number.
    let elements = built.entries() + 2 * built.multiplications() + 6;
    let opens = |limit: &u32| check_limit(read.largest(), *limit).is_ok();
    Ok(Sizes {
        columns: read.columns().len(),
        entries: built.entries(),
        published: read.published_entries().count(),
        wires: built.wires(),
        multiplications: built.multiplications(),
        tests: built.tests(),
        circuit_bytes: bytes.len(),
        share_bytes: 1 + 4 + 1 + field::WIDTH * elements,
        greatest_limit: (1..=MAX_LIMIT).rev().find(opens).unwrap_or(0),
    })
}
