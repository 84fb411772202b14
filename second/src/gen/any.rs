//! Single arguments of calls, good and not.

use super::{sheets, Rng};
use crate::sheet::Sheet;

/// A sheet, damaged in so many of a hundred cases.
pub(super) fn any_sheet(rng: &mut Rng, max: usize, percent_damaged: u64) -> Vec<u8> {
    if rng.chance(percent_damaged) {
        return sheets::damaged_sheet(rng);
    }
    let mut sheet = sheets::sheet(rng, max);
    // Sometimes a wide number, a high top or a wide point, which is what refusal 4 is about.
    if sheet.len() < 10 && max > 30 && rng.chance(30) {
        let bits = rng.between(21, 24);
        sheet.truncate(0);
        sheet.extend(rng.pick([&[17][..], &[], &[18, 3]]));
        match rng.below(3) {
            0 => sheet.extend([19, bits as u8]),
            1 => sheet.extend(sheets::top_column(sheets::top(rng, bits))),
            _ => sheet.extend([21, bits as u8 / 2]),
        }
    }
    sheet
}

/// An S, wrong in so many of a hundred cases.
pub(super) fn any_servers(rng: &mut Rng, percent_wrong: u64) -> u32 {
    if rng.chance(percent_wrong) {
        rng.pick([0, 1, 9, 255, 256, 258, 65_538, u32::MAX])
    } else {
        rng.between(2, 8) as u32
    }
}

/// An N, at the edge or past it in so many of a hundred cases.
pub(super) fn any_limit(rng: &mut Rng, sheet: &[u8], percent_edge: u64) -> u32 {
    let most = Sheet::read(sheet).map_or(1, |sheet| sheets::largest_limit(&sheet));
    if rng.chance(percent_edge) {
        let far = rng.pick([0, 1025, 65_537, u32::MAX]);
        rng.pick([most, most + 1, most + 1, 1024, far])
    } else {
        rng.between(1, u64::from(most)) as u32
    }
}

/// A Q for an N, out of range in so many of a hundred cases; often 1.
pub(super) fn any_least(rng: &mut Rng, limit: u32, percent_wrong: u64) -> u32 {
    if rng.chance(percent_wrong) {
        return wrong_least(rng, limit);
    }
    let any = rng.between(1, u64::from(limit)) as u32;
    rng.pick([1, 1, any, limit])
}

/// A Q outside 1 to N.
pub(super) fn wrong_least(rng: &mut Rng, limit: u32) -> u32 {
    let past = limit.saturating_add(1);
    let far = rng.between(past.into(), u32::MAX.into()) as u32;
    rng.pick([0, 0, past, past, 65_537, far, u32::MAX])
}

/// Room for so many bytes, too short in so many of a hundred cases.
pub(super) fn any_room(rng: &mut Rng, needed: usize, percent_short: u64) -> usize {
    if rng.chance(percent_short) {
        let less = rng.index(needed + 1);
        rng.pick([0, needed.saturating_sub(1), less])
    } else {
        let more = needed + rng.index(64);
        rng.pick([needed, more, usize::MAX])
    }
}

/// An R for the shelf, out of range in so many of a hundred cases.
pub(super) fn any_messages(rng: &mut Rng, percent_wrong: u64) -> u32 {
    if rng.chance(percent_wrong) {
        return rng.pick([0, 65, 256, 65_536, 65_537, u32::MAX]);
    }
    let any = rng.between(1, 64) as u32;
    rng.pick([1, 2, 64, any, any, any])
}

/// A W for the shelf, out of range in so many of a hundred cases; mostly small.
pub(super) fn any_width(rng: &mut Rng, percent_wrong: u64) -> u32 {
    if rng.chance(percent_wrong) {
        return rng.pick([0, 4097, 65_536, 65_537, 1 << 26, u32::MAX]);
    }
    let small = rng.between(1, 100) as u32;
    let any = rng.between(1, 4096) as u32;
    rng.pick([1, 4096, any, small, small, small, small, small])
}

/// An id, often at the edges.
pub(super) fn any_id(rng: &mut Rng) -> u32 {
    let any = rng.next_u64() as u32;
    rng.pick([0, 1, u32::MAX, any, any, any])
}
