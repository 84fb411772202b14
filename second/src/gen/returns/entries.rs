//! Lists of entries, valid and not.

use crate::field::{self, P};
use crate::gen::{sheets, Rng};
use crate::sheet::{Column, Sheet};

/// The entries of random values.
pub(super) fn true_entries(rng: &mut Rng, sheet: &Sheet) -> Vec<u64> {
    let values = sheets::values(rng, sheet);
    // Values made for the sheet are not refused.
    crate::values::encode(sheet, &values).unwrap_or_else(|_| vec![0; sheet.entries()])
}

/// A valid list with an entry or more changed.
pub(super) fn false_entries(rng: &mut Rng, sheet: &Sheet) -> Vec<u64> {
    let mut entries = true_entries(rng, sheet);
    if let Some(number) = sheets::with_gap(rng, sheet).filter(|_| rng.chance(50)) {
        past_top(rng, sheet, &mut entries, number);
        return entries;
    }
    if let Some(number) = sheets::with_point(rng, sheet).filter(|_| rng.chance(50)) {
        false_point(rng, own_entries(sheet, &mut entries, number));
        return entries;
    }
    for _ in 0..rng.between(1, 3) {
        let at = rng.index(entries.len());
        entries[at] = match rng.below(3) {
            0 => field::sub(1, entries[at]),
            1 => 2,
            _ => rng.element(),
        };
    }
    entries
}

/// Puts a value past its top, in as many bits, into a column: the bits of v are right, the
/// others any bits, so that only the test of the second sum can tell.
fn past_top(rng: &mut Rng, sheet: &Sheet, entries: &mut [u64], number: usize) {
    let column = sheet.columns()[number];
    let own = own_entries(sheet, entries, number);
    let bits = usize::from(column.bits());
    let first = u64::from(column.values());
    let any = rng.between(first, (1 << bits) - 1);
    let value = rng.pick([first, any, (1 << bits) - 1]);
    own[0] = value;
    for j in 0..bits {
        own[1 + j] = value >> j & 1;
        own[1 + bits + j] = rng.below(2);
    }
}

/// The entries of a column.
fn own_entries<'a>(sheet: &Sheet, entries: &'a mut [u64], number: usize) -> &'a mut [u64] {
    let (before, column) = (&sheet.columns()[..number], sheet.columns()[number]);
    let start: usize = before.iter().map(|column| column.entries()).sum();
    &mut entries[start..start + column.entries()]
}

/// Puts another number into the place of x × x or x × y, or another y with its right bits beside
/// the old product, so that only a test of a product can tell.
fn false_point(rng: &mut Rng, own: &mut [u64]) {
    let bits = (own.len() - 4) / 2;
    match rng.below(4) {
        0 => {
            let y = rng.below(1 << bits);
            own[2] = y;
            for j in 0..bits {
                own[4 + bits + j] = y >> j & 1;
            }
        }
        // The square of y, for x × y.
        1 => own[3] = field::mul(own[2], own[2]),
        2 => own[1] = field::add(own[1], rng.between(1, P - 1)),
        _ => own[3] = field::add(own[3], rng.between(1, P - 1)),
    }
}

/// Changes one product of a point, or x with a lowest bit that is none and the products of it.
fn false_claims(rng: &mut Rng, own: &mut [u64], delta: u64) {
    match rng.below(3) {
        0 => {
            own[4] = field::add(own[4], delta);
            own[0] = field::add(own[0], delta);
            own[1] = field::mul(own[0], own[0]);
            own[3] = field::mul(own[0], own[2]);
        }
        1 => own[1] = field::add(own[1], delta),
        _ => own[3] = field::add(own[3], delta),
    }
}

/// A list whose sums are right but whose bits or products are not.
pub(super) fn false_bits(rng: &mut Rng, sheet: &Sheet) -> Vec<u64> {
    let mut entries = true_entries(rng, sheet);
    let mut start = 0;
    let target = rng.index(sheet.columns().len());
    for (number, column) in sheet.columns().iter().enumerate() {
        let end = start + column.entries();
        if number == target {
            let own = &mut entries[start..end];
            let delta = rng.between(2, P - 2);
            match column {
                Column::YesNo => own[0] = delta,
                Column::Choice(_) => {
                    own[0] = field::add(own[0], delta);
                    own[1] = field::sub(own[1], delta);
                }
                Column::Number(_) => {
                    own[0] = field::add(own[0], delta);
                    own[1] = field::add(own[1], delta);
                }
                // The second sum starts with v, so that its bits take off what v has more.
                Column::Top(_) => {
                    let second = 1 + usize::from(column.bits());
                    own[0] = field::add(own[0], delta);
                    own[1] = field::add(own[1], delta);
                    own[second] = field::sub(own[second], delta);
                }
                Column::Point(_) => false_claims(rng, own, delta),
            }
        }
        start = end;
    }
    entries
}
