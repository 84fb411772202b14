//! The sheet reader of the lent form: counts only, in one pass.

use crate::limits::check_opening;
use crate::refusal;
use crate::sheet::{Column, MAX_ENTRIES, MAX_MULTIPLICATIONS, MAX_TESTS};
use crate::table::PLACES;

/// The counts of a sheet that was read.
#[derive(Clone, Copy, Debug, PartialEq, Eq)]
pub(super) struct Shape {
    /// L.
    pub entries: usize,
    /// The number of published entries.
    pub published: usize,
    /// M.
    pub gates: usize,
    /// K.
    pub tests: usize,
    /// Whether there are columns of kind 21.
    pub points: bool,
    /// The largest value of a published entry.
    pub largest: u64,
}

impl Shape {
    /// Reads a sheet, N and Q with it. Order of refusals: sheet, N, Q, 4.
    #[inline(always)]
    pub fn opening(sheet: &[u8], limit: u32, least: u32) -> Result<Shape, u32> {
        let shape = Shape::read(sheet)?;
        check_opening(shape.largest, limit, least)?;
        Ok(shape)
    }

    /// Reads a sheet; the total limits come last.
    #[inline(always)]
    pub fn read(sheet: &[u8]) -> Result<Shape, u32> {
        let mut shape = Shape {
            entries: 0,
            published: 0,
            gates: 0,
            tests: 0,
            points: false,
            largest: 0,
        };
        let mut rest = sheet;
        while let Some((column, next)) = Column::read(rest)? {
            let alike = match column {
                Column::YesNo => yes_no_run(next),
                _ => 0,
            };
            shape.add(column, 1 + alike);
            rest = &next[alike..];
        }
        let within = (1..=MAX_ENTRIES).contains(&(shape.entries as u64))
            && (1..=MAX_MULTIPLICATIONS).contains(&(shape.gates as u64))
            && (1..=MAX_TESTS).contains(&(shape.tests as u64));
        if within {
            Ok(shape)
        } else {
            Err(refusal::LIMIT)
        }
    }

    /// Counts so many columns of one kind. A column adds at most 65 to a count for two bytes,
    /// so no count overflows.
    fn add(&mut self, column: Column, times: usize) {
        self.entries += times * column.entries();
        self.published += times * column.published();
        self.gates += times * column.multiplications();
        self.tests += times * column.tests();
        self.points |= matches!(column, Column::Point(_));
        self.largest = self.largest.max(column.largest());
    }

    /// "A share has L + 2M + 6 elements."
    pub fn elements(&self) -> usize {
        self.entries + 2 * self.gates + 6
    }

    /// They stand after kind byte, id and server number.
    pub fn share_length(&self) -> usize {
        6 + 4 * self.elements()
    }

    /// The numbers of a place: the elements of a share, r × h(r) and tau.
    pub fn place(&self) -> usize {
        self.elements() + 2
    }

    /// The numbers of all places.
    pub fn run_length(&self) -> usize {
        PLACES * self.place()
    }
}

/// How many yes/no columns stand at the start.
fn yes_no_run(sheet: &[u8]) -> usize {
    const WIDE: usize = 32;
    let (chunks, _) = sheet.as_chunks::<WIDE>();
    let wide = WIDE
        * chunks
            .iter()
            .take_while(|chunk| **chunk == [17; WIDE])
            .count();
    let rest = sheet[wide..].iter();
    wide + rest.take_while(|kind| **kind == 17).count()
}

#[cfg(test)]
mod tests {
    use super::*;
    use crate::gen::{self, Rng};
    use crate::sheet::Sheet;

    fn check(bytes: &[u8]) {
        let expected = Sheet::read(bytes).map(|sheet| Shape {
            entries: sheet.entries(),
            published: sheet.published(),
            gates: sheet.multiplications(),
            tests: sheet.tests(),
            points: {
                let mut columns = sheet.columns().iter();
                columns.any(|column| matches!(column, Column::Point(_)))
            },
            largest: sheet.largest(),
        });
        assert_eq!(Shape::read(bytes), expected, "{bytes:?}");
        if let (Ok(shape), Ok(sheet)) = (Shape::read(bytes), Sheet::read(bytes)) {
            assert_eq!(shape.share_length(), sheet.share_length());
            assert_eq!(shape.run_length(), 8 * (sheet.share_elements() + 2));
        }
    }

    #[test]
    fn shapes_are_those_of_the_plain_reader() {
        let mut rng = Rng::new(31);
        for _ in 0..4000 {
            check(&gen::sheet(&mut rng, 256));
            check(&gen::damaged_sheet(&mut rng));
        }
        for count in 0..300 {
            check(&vec![17; count]);
            for last in [16, 18, 19, 20, 21, 22] {
                let mut bytes = vec![17; count];
                bytes.push(last);
                check(&bytes);
                bytes.push(2);
                check(&bytes);
                bytes.push(17);
                check(&bytes);
                bytes.extend([0, 0, 17]);
                check(&bytes);
            }
        }
        check(&vec![17; 65_535]);
    }
}
