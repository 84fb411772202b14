//! Every legal return of a small sheet.

use crate::refusal;
use crate::sheet::Sheet;

/// Lists, at most.
pub const MAX_LISTS: u64 = 4_096;

/// The legal lists of a sheet.
#[derive(Clone, Debug, PartialEq, Eq)]
pub struct Listing {
    /// How many there are.
    pub lists: u32,
    /// The lists one after another, 4 bytes to a value.
    pub values: Vec<u8>,
}

/// Writes out "every legal list of values, one per column, each once, in rising order with the
/// first column weighing most". Order of refusals: sheet, 17, 14.
pub fn every_return(sheet: &[u8], room: usize) -> Result<Listing, u32> {
    let lists = lists(&Sheet::read(sheet)?)?;
    // "Every value is 4 bytes."
    let values: Vec<u8> = lists
        .concat()
        .iter()
        .flat_map(|value| value.to_le_bytes())
        .collect();
    if values.len() > room {
        return Err(refusal::ROOM);
    }
    Ok(Listing {
        lists: lists.len() as u32,
        values,
    })
}

/// The lists over the first columns, column by column: each list in order, followed by each
/// value in order. "More than 4,096 lists are refused 17": a column has two values or more, so
/// lists never grow fewer, and a column's 2^24 values at most keep the product small.
fn lists(sheet: &Sheet) -> Result<Vec<Vec<u32>>, u32> {
    let mut lists = vec![Vec::new()];
    for column in sheet.columns() {
        if lists.len() as u64 * u64::from(column.values()) > MAX_LISTS {
            return Err(refusal::MANY);
        }
        let longer = |list: &Vec<u32>| -> Vec<Vec<u32>> {
            let followed = |value| [&list[..], &[value]].concat();
            (0..column.values()).map(followed).collect()
        };
        lists = lists.iter().flat_map(longer).collect();
    }
    Ok(lists)
}
