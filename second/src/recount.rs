//! The text that the program recount prints.

use std::fmt::Write;

use crate::field;
use crate::joining::{join, Joined};
use crate::refusal;
use crate::sheet::Sheet;

/// Reads "sheet length (2 bytes), sheet, S (1), N (2), then the joined totals messages"
/// and gives the text to print.
pub fn recount(input: &[u8]) -> String {
    match report(input) {
        Ok(text) => text,
        // "A refusal prints the one line `refused` and its number."
        Err(number) => format!("refused {number}\n"),
    }
}

fn report(input: &[u8]) -> Result<String, u32> {
    // "Input that ends before both bytes of N are read is refused 12; all other input,
    // with nothing after N included, gets joining's number."
    let (sheet, servers, limit, joined) = parts(input).ok_or(refusal::JOINED)?;
    let Joined { count, totals } = join(servers, sheet, limit, joined, usize::MAX)?;

    let mut text = format!("accepted {count}\n");
    let mut totals = field::words(&totals);
    for (number, column) in (1..).zip(Sheet::read(sheet)?.columns()) {
        // Options from 0; always 0 for kinds 17, 19 and 20, which publish one entry, and 0 to 3
        // for kind 21.
        for (option, total) in (0..column.published()).zip(totals.by_ref()) {
            // Writing to a string does not fail.
            let _ = writeln!(text, "{number} {option} {total}");
        }
    }
    Ok(text)
}

/// The sheet, S, N and the joined messages.
fn parts(input: &[u8]) -> Option<(&[u8], u32, u32, &[u8])> {
    let (length, rest) = input.split_first_chunk::<2>()?;
    let (sheet, rest) = rest.split_at_checked(usize::from(u16::from_le_bytes(*length)))?;
    let (servers, rest) = rest.split_first()?;
    let (limit, joined) = rest.split_first_chunk::<2>()?;
    let limit = u16::from_le_bytes(*limit);
    Some((sheet, u32::from(*servers), u32::from(limit), joined))
}
