//! Closing messages, faults in them, and the input of recount.

use super::{sheets, Rng};
use crate::field::{self, P};
use crate::sheet::{Column, Sheet};
use crate::table::CLOSING;

/// A closing message with random totals.
pub(super) fn closing(rng: &mut Rng, server: u32, count: u32, published: usize) -> Vec<u8> {
    let mut message = vec![CLOSING, server as u8];
    message.extend(count.to_le_bytes());
    message.extend(sheets::elements(rng, published));
    message
}

/// The closing messages of S servers whose totals add up to these modulo p.
pub(super) fn split_totals(rng: &mut Rng, servers: u32, count: u32, totals: &[u64]) -> Vec<u8> {
    let mut remains = totals.to_vec();
    let mut joined = Vec::new();
    for server in 1..servers {
        let message = closing(rng, server, count, totals.len());
        for (rest, element) in remains.iter_mut().zip(field::words(&message[6..])) {
            *rest = field::sub(*rest, u64::from(element));
        }
        joined.extend(message);
    }
    let mut first = vec![CLOSING, 0];
    first.extend(count.to_le_bytes());
    first.extend(remains.into_iter().flat_map(field::bytes));
    [first, joined].concat()
}

/// Published totals of a sheet, with the sums of a column of kind 21 of interest: those of points
/// of its bits, of points with the same x, or elements that keep no form, often at the edges.
pub(super) fn line_totals(rng: &mut Rng, sheet: &Sheet, column: u32, count: u32) -> Vec<u64> {
    let mut totals: Vec<u64> = (0..sheet.published()).map(|_| rng.element()).collect();
    let before = (column as usize).saturating_sub(1);
    let Some(Column::Point(bits)) = sheet.columns().get(before) else {
        return totals;
    };
    let first: usize = sheet.columns()[..before]
        .iter()
        .map(|c| c.published())
        .sum();
    let own = &mut totals[first..first + 4];
    match rng.below(6) {
        0..=2 => {
            let alike = rng.chance(35).then(|| rng.below(1 << bits));
            own.fill(0);
            for _ in 0..count {
                let (x, y) = (rng.below(1 << bits), rng.below(1 << bits));
                let x = alike.unwrap_or(x);
                for (total, term) in own.iter_mut().zip([x, x * x, y, x * y]) {
                    *total = field::add(*total, term);
                }
            }
        }
        3 => own.fill_with(|| rng.pick([0, 1, P - 2, P - 1])),
        _ => {}
    }
    totals
}

/// The input of recount. S and N that do not fit their bytes are cut.
pub(super) fn recount_input(servers: u32, sheet: &[u8], limit: u32, joined: &[u8]) -> Vec<u8> {
    let mut input = (sheet.len() as u16).to_le_bytes().to_vec();
    input.extend_from_slice(sheet);
    input.push(servers as u8);
    input.extend((limit as u16).to_le_bytes());
    input.extend_from_slice(joined);
    input
}

/// Puts a fault or more into joined closing messages.
pub(super) fn damage_closings(rng: &mut Rng, joined: &mut Vec<u8>, published: usize, limit: u32) {
    let length = 6 + field::WIDTH * published;
    for _ in 0..rng.between(1, 2) {
        let places = joined.len() / length;
        if places == 0 {
            joined.push(CLOSING);
            return;
        }
        let start = length * rng.index(places);
        let other = length * rng.index(places);
        match rng.below(8) {
            0 => joined[start] = rng.pick([0, 33, 34, 35, 37, 255]),
            1 => joined[start + 1] = rng.pick([0, 1, 2, 7, 8, 255]),
            // One count off, or all counts past N.
            2 => joined[start + 2] ^= rng.pick([1, 2, 128]),
            3 => {
                let any = rng.between(u64::from(limit) + 1, u64::from(u32::MAX)) as u32;
                let over = rng.pick([limit.saturating_add(1), any, u32::MAX]);
                for message in joined.chunks_exact_mut(length) {
                    message[2..6].copy_from_slice(&over.to_le_bytes());
                }
            }
            4 => {
                let at = start + 6 + 4 * rng.index(published);
                joined[at..at + 4].copy_from_slice(&rng.no_element().to_le_bytes());
            }
            5 => {
                let keep = rng.index(joined.len());
                joined.truncate(keep);
            }
            6 => joined.extend(rng.pick([&[0u8][..], &[36, 0, 0, 0, 0, 0]])),
            // Two places swapped.
            _ => swap(joined, start, other, length),
        }
    }
}

/// Swaps the messages of so many bytes at two places.
fn swap(joined: &mut [u8], start: usize, other: usize, length: usize) {
    for i in 0..length {
        joined.swap(start + i, other + i);
    }
}
