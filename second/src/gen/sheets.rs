//! Sheets, values and elements.

use super::Rng;
use crate::field::{self, P};
use crate::limits::MAX_LIMIT;
use crate::sheet::{Column, Sheet, MAX_ENTRIES};

/// A legal sheet of at most so many entries (at least 1, at most 256): mixed, or of one
/// kind only; small, or filled up.
pub fn sheet(rng: &mut Rng, max_entries: usize) -> Vec<u8> {
    let max = (max_entries as u64).clamp(1, MAX_ENTRIES);
    let target = match rng.below(4) {
        0 => rng.between(1, max.min(4)),
        1 => rng.between(1, max.min(30)),
        2 => rng.between(1, max),
        _ => max,
    };
    // One of the five kinds, or all of them.
    let only = rng.below(10).checked_sub(5).map(|kind| 17 + kind);
    let widest = rng.pick([2, 5, 64]);
    let mut left = target;
    let mut bytes = Vec::new();
    while left > 0 {
        let kind = only.unwrap_or_else(|| rng.between(17, 21));
        let (column, entries) = column(rng, kind, left, widest);
        bytes.extend(column);
        left -= entries;
    }
    bytes
}

/// A column of a kind with at most so many entries, and how many it has; a yes/no where the
/// kind needs more than are left.
fn column(rng: &mut Rng, kind: u64, left: u64, widest: u64) -> (Vec<u8>, u64) {
    match kind {
        18 if left >= 2 => {
            let options = rng.between(2, left.min(64).min(widest));
            (vec![18, options as u8], options)
        }
        19 if left >= 2 => {
            let most = (left - 1).min(24).min(widest);
            // Wide numbers often: they are what refusal 4 is about.
            let bits = if rng.chance(30) {
                most
            } else {
                rng.between(1, most)
            };
            (vec![19, bits as u8], 1 + bits)
        }
        20 if left >= 3 => {
            let bits = rng.between(1, ((left - 1) / 2).min(24).min(widest));
            (top_column(top(rng, bits)), 1 + 2 * bits)
        }
        21 if left >= 6 => {
            let bits = rng.between(1, ((left - 4) / 2).min(12).min(widest));
            (vec![21, bits as u8], 4 + 2 * bits)
        }
        _ => (vec![17], 1),
    }
}

/// A top of so many bits (1 to 24), often the least or the greatest.
pub(super) fn top(rng: &mut Rng, bits: u64) -> u32 {
    let (least, greatest) = (1 << (bits - 1), (1 << bits) - 1);
    let any = rng.between(least, greatest);
    rng.pick([least, greatest, any, any]) as u32
}

/// A column with a top: the kind byte and the 4-byte top.
pub(super) fn top_column(top: u32) -> Vec<u8> {
    [&[20], &top.to_le_bytes()[..]].concat()
}

/// A legal sheet of few legal returns: up to 4,096, or, once in a while, a little over.
pub fn small_sheet(rng: &mut Rng) -> Vec<u8> {
    let most = rng.pick([2, 20, 300, 4096, 4096, 9000]);
    let mut bytes = Vec::new();
    let mut left = most;
    while left >= 2 {
        let options = rng.between(2, left.min(64));
        let bits = rng.between(1, u64::from(left.ilog2()));
        let (column, values) = match rng.below(5) {
            0 => (vec![17], 2),
            1 => (vec![18, options as u8], options),
            2 => (vec![19, bits as u8], 1 << bits),
            3 if bits >= 2 => (vec![21, bits as u8 / 2], 1 << (bits / 2 * 2)),
            _ => {
                let few = rng.between(1, left.min(9) - 1);
                let any = rng.between(1, left - 1);
                let top = rng.pick([few, few, any, left - 1]);
                (top_column(top as u32), top + 1)
            }
        };
        bytes.extend(column);
        left /= values;
        if rng.chance(10) {
            break;
        }
    }
    bytes
}

/// Columns with a count outside its limits.
const OUTSIDE: [&[u8]; 14] = [
    &[18, 0],
    &[18, 1],
    &[18, 65],
    &[18, 255],
    &[19, 0],
    &[19, 25],
    &[19, 255],
    &[20, 0, 0, 0, 0],
    &[20, 0, 0, 0, 1],
    &[20, 1, 0, 0, 1],
    &[20, 255, 255, 255, 255],
    &[21, 0],
    &[21, 13],
    &[21, 255],
];

/// Columns whose body is cut.
const CUT: [&[u8]; 8] = [
    &[18],
    &[19],
    &[20],
    &[20, 0],
    &[20, 200, 0],
    &[20, 0, 0, 0],
    &[20, 255, 255, 255],
    &[21],
];

/// A sheet that is meant to be refused, 1 or 2. (A few that were only touched in one byte
/// are legal after all.)
pub fn damaged_sheet(rng: &mut Rng) -> Vec<u8> {
    let mut bytes = match rng.below(4) {
        0 => Vec::new(),
        1 => sheet(rng, 256),
        _ => sheet(rng, 12),
    };
    match rng.below(9) {
        0 => return Vec::new(),
        // An unknown kind, last or with more behind it.
        1 => {
            bytes.push(rng.pick([0, 1, 16, 22, 33, 255]));
            if rng.chance(50) {
                bytes.extend(sheet(rng, 5));
            }
        }
        // A count outside its limits.
        2 => {
            bytes.extend(rng.pick(OUTSIDE));
            if rng.chance(50) {
                bytes.extend(sheet(rng, 5));
            }
        }
        // A cut body.
        3 => bytes.extend(rng.pick(CUT)),
        // Too many entries.
        4 => {
            while Sheet::read(&bytes).is_ok() || bytes.is_empty() {
                bytes.extend(sheet(rng, 256));
            }
        }
        // Too many entries, and then a record at fault.
        5 => {
            bytes.extend(vec![17; 300]);
            bytes.extend(rng.pick([[99, 17], [18, 1], [17, 18]]));
        }
        // Two records at fault.
        6 => bytes.extend(rng.pick([
            [18, 1, 99, 17],
            [99, 18, 1, 17],
            [19, 25, 17, 18],
            [19, 0, 20, 20],
            [20, 19, 0, 18],
            [21, 13, 22, 17],
            [22, 18, 1, 17],
        ])),
        7 => {
            let length = rng.between(1, 20) as usize;
            bytes = rng.bytes(length);
        }
        _ => {
            if bytes.is_empty() {
                bytes.push(17);
            }
            let at = rng.index(bytes.len());
            bytes[at] = rng.pick([
                0, 1, 2, 12, 13, 16, 17, 18, 19, 20, 21, 22, 24, 25, 64, 65, 255,
            ]);
        }
    }
    bytes
}

/// The greatest N with which a sheet opens (refusal 4).
pub fn largest_limit(sheet: &Sheet) -> u32 {
    let columns = sheet.columns().iter();
    let most = columns.map(|column| (P - 1) / column.largest()).min();
    most.map_or(MAX_LIMIT, |most| most.min(u64::from(MAX_LIMIT)) as u32)
}

/// One legal value for each column, 4 bytes each.
pub fn values(rng: &mut Rng, sheet: &Sheet) -> Vec<u8> {
    let columns = sheet.columns().iter();
    columns
        .flat_map(|column| value(rng, *column).to_le_bytes())
        .collect()
}

fn value(rng: &mut Rng, column: Column) -> u32 {
    let last = column.values() - 1;
    match rng.below(6) {
        0 => 0,
        1 => last,
        _ => rng.between(0, u64::from(last)) as u32,
    }
}

/// A column with a top, by its number, that has a value past the top in as many bits; `None`
/// where there is none.
pub(super) fn with_gap(rng: &mut Rng, sheet: &Sheet) -> Option<usize> {
    let columns = sheet.columns().iter().enumerate();
    let gaps = columns.filter(|(_, column)| match column {
        Column::Top(top) => !(top + 1).is_power_of_two(),
        _ => false,
    });
    let gaps: Vec<usize> = gaps.map(|(number, _)| number).collect();
    (!gaps.is_empty()).then(|| gaps[rng.index(gaps.len())])
}

/// A column of kind 21, by its number; `None` where there is none.
pub(super) fn with_point(rng: &mut Rng, sheet: &Sheet) -> Option<usize> {
    let columns = sheet.columns().iter().enumerate();
    let points = columns.filter(|(_, column)| matches!(column, Column::Point(_)));
    let points: Vec<usize> = points.map(|(number, _)| number).collect();
    (!points.is_empty()).then(|| points[rng.index(points.len())])
}

/// Values that are refused 5.
pub fn damaged_values(rng: &mut Rng, sheet: &Sheet) -> Vec<u8> {
    let mut bytes = values(rng, sheet);
    match rng.below(4) {
        0 => {
            let keep = rng.index(bytes.len());
            bytes.truncate(keep);
        }
        1 => {
            let more = rng.between(1, 8) as usize;
            bytes.resize(bytes.len() + more, 0);
        }
        _ => {
            let any = rng.index(sheet.columns().len());
            let gap = with_gap(rng, sheet).filter(|_| rng.chance(50));
            let at = gap.unwrap_or(any);
            let past = sheet.columns()[at].values();
            let any = rng.between(u64::from(past), u64::from(u32::MAX)) as u32;
            let wrong = rng.pick([past, past + 1, any, u32::MAX]);
            bytes[4 * at..4 * at + 4].copy_from_slice(&wrong.to_le_bytes());
        }
    }
    bytes
}

/// So many random elements, 4 bytes each.
pub fn elements(rng: &mut Rng, count: usize) -> Vec<u8> {
    (0..count)
        .flat_map(|_| field::bytes(rng.element()))
        .collect()
}

/// Elements of which one is not below p, or too few or too many bytes.
pub fn damaged_elements(rng: &mut Rng, count: usize) -> Vec<u8> {
    let mut bytes = elements(rng, count);
    match rng.below(4) {
        0 => {
            let cut = rng.between(1, 4) as usize;
            bytes.truncate(bytes.len().saturating_sub(cut));
        }
        1 => {
            let more = rng.between(1, 4) as usize;
            bytes.resize(bytes.len() + more, 0);
        }
        _ if count > 0 => {
            let at = 4 * rng.index(count);
            bytes[at..at + 4].copy_from_slice(&rng.no_element().to_le_bytes());
        }
        _ => bytes.push(0),
    }
    bytes
}
