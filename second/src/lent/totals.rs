//! The totals of the lent form, to which an entered return's published entries are added.

use super::layout::Word;
use super::shape::Shape;
use crate::field::P;
use crate::sheet::Column;

/// Adds the published ones of a share's L entries to the totals.
pub(super) fn add_published(sheet: &[u8], shape: &Shape, totals: &mut [Word], entries: &[u32]) {
    if shape.published == shape.entries {
        // Without numbers, each entry is published.
        add_up(totals, entries);
        return;
    }
    let (mut sheet, mut totals, mut entries) = (sheet, totals, entries);
    while let Ok(Some((column, next))) = Column::read(sheet) {
        // The published entries of a column stand at its start.
        let (own, other_totals) = totals.split_at_mut(column.published());
        add_up(own, entries);
        (sheet, totals, entries) = (next, other_totals, &entries[column.entries()..]);
    }
}

/// Adds as many elements to as many totals, modulo p.
fn add_up(totals: &mut [Word], elements: &[u32]) {
    for (total, &element) in totals.iter_mut().zip(elements) {
        // Both are below p = 2^31 - 1, so the sum fits. Where sum + 1 has the top bit, p is
        // taken off: 1 is added and the top bit cleared.
        let sum = u32::from_le_bytes(*total) + element;
        let sum = (sum + ((sum + 1) >> 31)) & P as u32;
        *total = sum.to_le_bytes();
    }
}

#[cfg(test)]
mod tests {
    use super::*;
    use crate::field;
    use crate::gen::{self, Rng};
    use crate::lent::layout::value;
    use crate::sheet::Sheet;

    #[test]
    fn totals_add_up_modulo_p() {
        let p = P as u32;
        for a in [0, 1, p / 2, p / 2 + 1, p - 2, p - 1] {
            for b in [0, 1, p / 2, p / 2 + 1, p - 2, p - 1] {
                let mut totals = [a.to_le_bytes(); 5];
                add_up(&mut totals, &[b; 5]);
                let sum = field::add(u64::from(a), u64::from(b));
                assert!(totals.iter().all(|&total| value(total) == sum));
            }
        }
    }

    #[test]
    fn published_entries_are_those_of_the_plain_reader() {
        let mut rng = Rng::new(32);
        for _ in 0..1000 {
            let bytes = gen::sheet(&mut rng, 256);
            let (Ok(sheet), Ok(shape)) = (Sheet::read(&bytes), Shape::read(&bytes)) else {
                continue;
            };
            let entries: Vec<u32> = (0..shape.entries as u32).collect();
            let mut totals = vec![[0; 4]; shape.published];
            add_published(&bytes, &shape, &mut totals, &entries);
            let found = totals.iter().map(|&total| value(total) as usize);
            assert!(found.eq(sheet.published_entries()), "{bytes:?}");
        }
    }
}
