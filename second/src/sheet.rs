//! "Sheet and circuit", first half: columns and the sheet reader.

use crate::refusal;

/// Entries, at most.
pub const MAX_ENTRIES: u64 = 256;
/// Multiplications, at most.
pub const MAX_MULTIPLICATIONS: u64 = 256;
/// Tests, at most.
pub const MAX_TESTS: u64 = 512;
/// The top T of a column of kind 20, at most.
pub const MAX_TOP: u32 = 16_777_215;

/// One column of a sheet.
#[derive(Clone, Copy, Debug, PartialEq, Eq)]
pub enum Column {
    /// Kind 17: one entry, 0 or 1.
    YesNo,
    /// Kind 18 with B options: B entries, the chosen one is 1, the rest 0.
    Choice(u8),
    /// Kind 19 with b bits: entry v, then b bit entries, lowest first.
    Number(u8),
    /// Kind 20 with a top T of b bits: "the entries are v, the b bits of v, and the b bits of
    /// T - v".
    Top(u32),
    /// Kind 21 with b bits: "entries x, x × x, y, x × y, then b bits of x and b bits of y".
    Point(u8),
}

impl Column {
    /// Reads the first column of a run of bytes; gives it and what follows it, `None` at the
    /// end. Kind and cut come first (refusal 1), then counts (refusal 2).
    pub(crate) fn read(bytes: &[u8]) -> Result<Option<(Column, &[u8])>, u32> {
        Ok(Some(match bytes {
            [] => return Ok(None),
            [17, next @ ..] => (Column::YesNo, next),
            [18, options @ 2..=64, next @ ..] => (Column::Choice(*options), next),
            [19, bits @ 1..=24, next @ ..] => (Column::Number(*bits), next),
            [21, bits @ 1..=12, next @ ..] => (Column::Point(*bits), next),
            [18 | 19 | 21, _, ..] => return Err(refusal::LIMIT),
            // "A T out of range is refused as a count."
            [20, t0, t1, t2, t3, next @ ..] => match u32::from_le_bytes([*t0, *t1, *t2, *t3]) {
                top @ 1..=MAX_TOP => (Column::Top(top), next),
                _ => return Err(refusal::LIMIT),
            },
            // An unknown kind, or a body that is cut.
            _ => return Err(refusal::KIND),
        }))
    }

    /// "With b the bit length of T": b of kinds 19, 20 and 21, 0 of the others.
    pub(crate) fn bits(self) -> u8 {
        match self {
            Column::YesNo | Column::Choice(_) => 0,
            Column::Number(bits) | Column::Point(bits) => bits,
            Column::Top(top) => (u32::BITS - top.leading_zeros()) as u8,
        }
    }

    /// How many entries the column has.
    pub fn entries(self) -> usize {
        match self {
            Column::YesNo => 1,
            Column::Choice(options) => usize::from(options),
            Column::Number(bits) => 1 + usize::from(bits),
            Column::Top(_) => 1 + 2 * usize::from(self.bits()),
            Column::Point(bits) => 4 + 2 * usize::from(bits),
        }
    }

    /// How many of its entries are published. They stand at the column's start:
    /// every entry of kinds 17 and 18, v of kinds 19 and 20, and four entries of kind 21.
    pub fn published(self) -> usize {
        match self {
            Column::YesNo | Column::Number(_) | Column::Top(_) => 1,
            Column::Choice(options) => usize::from(options),
            Column::Point(_) => 4,
        }
    }

    /// How many multiplications its part of the circuit has: one for each bit check, and
    /// x × x and x × y of kind 21.
    pub fn multiplications(self) -> usize {
        match self {
            Column::YesNo => 1,
            Column::Choice(options) => usize::from(options),
            Column::Number(bits) => usize::from(bits),
            Column::Top(_) => 2 * usize::from(self.bits()),
            Column::Point(bits) => 2 * usize::from(bits) + 2,
        }
    }

    /// How many tests its part of the circuit has: one for each multiplication, and one
    /// for each sum: one sum of kinds 18 and 19, two of kinds 20 and 21.
    pub fn tests(self) -> usize {
        match self {
            Column::YesNo => 1,
            Column::Choice(_) | Column::Number(_) => self.multiplications() + 1,
            Column::Top(_) | Column::Point(_) => self.multiplications() + 2,
        }
    }

    /// How many values the column has: a value is from 0 to this less 1.
    pub fn values(self) -> u32 {
        match self {
            Column::YesNo => 2,
            Column::Choice(options) => u32::from(options),
            Column::Number(bits) => 1u32.checked_shl(u32::from(bits)).unwrap_or(u32::MAX),
            // "Legal values are 0 to T."
            Column::Top(top) => top.saturating_add(1),
            // "Its value is the number x + 2^b × y."
            Column::Point(bits) => 1u32.checked_shl(2 * u32::from(bits)).unwrap_or(u32::MAX),
        }
    }

    /// The largest value of a published entry: 2^b - 1 for kind 19, T for kind 20, the square
    /// of 2^b - 1 for kind 21, else 1.
    pub fn largest(self) -> u64 {
        match self {
            Column::YesNo | Column::Choice(_) => 1,
            Column::Number(_) => u64::from(self.values()) - 1,
            Column::Top(top) => u64::from(top),
            Column::Point(bits) => ((1u64 << bits) - 1).pow(2),
        }
    }
}

/// A sheet that was read: its columns and its counts.
#[derive(Clone, Debug, PartialEq, Eq)]
pub struct Sheet {
    columns: Vec<Column>,
    entries: usize,
    published: usize,
    multiplications: usize,
    tests: usize,
}

impl Sheet {
    /// Reads a sheet. "Reading stops at the first record at fault, and its number is
    /// the refusal: kind and cut, then counts ...; the total limits last."
    pub fn read(bytes: &[u8]) -> Result<Sheet, u32> {
        let mut columns = Vec::new();
        let mut rest = bytes;
        while let Some((column, next)) = Column::read(rest)? {
            columns.push(column);
            rest = next;
        }

        // A sheet has no length limit of its own. A column is at least one byte and
        // adds at most 65 to each count, so the sums stay far below 2^64.
        let total = |count: fn(Column) -> usize| -> u64 {
            columns.iter().map(|&column| count(column) as u64).sum()
        };
        let entries = total(Column::entries);
        let multiplications = total(Column::multiplications);
        let tests = total(Column::tests);
        // The limits of circuit bytes and wires follow from that of the entries.
        if !(1..=MAX_ENTRIES).contains(&entries)
            || !(1..=MAX_MULTIPLICATIONS).contains(&multiplications)
            || !(1..=MAX_TESTS).contains(&tests)
        {
            return Err(refusal::LIMIT);
        }
        Ok(Sheet {
            entries: entries as usize,
            published: columns.iter().map(|column| column.published()).sum(),
            multiplications: multiplications as usize,
            tests: tests as usize,
            columns,
        })
    }

    /// The columns in sheet order.
    pub fn columns(&self) -> &[Column] {
        &self.columns
    }

    /// L, the number of entries.
    pub fn entries(&self) -> usize {
        self.entries
    }

    /// The number of published entries.
    pub fn published(&self) -> usize {
        self.published
    }

    /// M, the number of multiplications.
    pub fn multiplications(&self) -> usize {
        self.multiplications
    }

    /// K, the number of tests.
    pub fn tests(&self) -> usize {
        self.tests
    }

    /// The largest value of a published entry, of all columns.
    pub(crate) fn largest(&self) -> u64 {
        let largest = self.columns.iter().map(|column| column.largest());
        largest.max().unwrap_or(0)
    }

    /// "A share has L + 2M + 6 elements."
    pub fn share_elements(&self) -> usize {
        self.entries + 2 * self.multiplications + 6
    }

    /// The length of a share message: kind byte, id, server number, the elements.
    pub fn share_length(&self) -> usize {
        6 + 4 * self.share_elements()
    }

    /// The length of a closing message: kind byte, server, count, published totals.
    pub fn closing_length(&self) -> usize {
        6 + 4 * self.published
    }

    /// The entry numbers of the published entries, in entry order.
    pub fn published_entries(&self) -> impl Iterator<Item = usize> + '_ {
        let mut start = 0;
        self.columns.iter().flat_map(move |column| {
            let first = start;
            start += column.entries();
            first..first + column.published()
        })
    }
}

#[cfg(test)]
mod tests {
    use super::*;

    #[test]
    fn counts_of_each_kind() {
        let sheet = Sheet::read(&[17, 18, 3, 19, 4]).unwrap();
        assert_eq!(
            sheet.columns(),
            [Column::YesNo, Column::Choice(3), Column::Number(4)]
        );
        assert_eq!(sheet.entries(), 1 + 3 + 5);
        assert_eq!(sheet.published(), 1 + 3 + 1);
        assert_eq!(sheet.multiplications(), 1 + 3 + 4);
        assert_eq!(sheet.tests(), 1 + 4 + 5);
        let published: Vec<usize> = sheet.published_entries().collect();
        assert_eq!(published, [0, 1, 2, 3, 4]);
        let sheet = Sheet::read(&[19, 2, 17, 19, 1, 18, 2]).unwrap();
        let published: Vec<usize> = sheet.published_entries().collect();
        assert_eq!(published, [0, 3, 4, 6, 7]);
    }

    #[test]
    fn counts_of_tops() {
        let sheet = Sheet::read(&[17, 20, 200, 0, 0, 0, 20, 0, 1, 0, 0, 17]).unwrap();
        let (hours, more) = (Column::Top(200), Column::Top(256));
        assert_eq!(sheet.columns(), [Column::YesNo, hours, more, Column::YesNo]);
        assert_eq!(sheet.entries(), 1 + 17 + 19 + 1);
        assert_eq!(sheet.published(), 4);
        assert_eq!(sheet.multiplications(), 1 + 16 + 18 + 1);
        assert_eq!(sheet.tests(), 1 + 18 + 20 + 1);
        let published: Vec<usize> = sheet.published_entries().collect();
        assert_eq!(published, [0, 1, 18, 37]);
        assert_eq!((hours.values(), hours.largest()), (201, 200));
        for (top, bits) in [(1, 1), (2, 2), (3, 2), (4, 3), (127, 7), (128, 8)] {
            assert_eq!(Column::Top(top).bits(), bits);
        }
        assert_eq!(Column::Top((1 << 23) - 1).bits(), 23);
        assert_eq!(Column::Top(1 << 23).bits(), 24);
        assert_eq!(Column::Top(MAX_TOP).bits(), 24);
    }

    #[test]
    fn counts_of_points() {
        let sheet = Sheet::read(&[17, 21, 3, 19, 2, 21, 12]).unwrap();
        let (small, large) = (Column::Point(3), Column::Point(12));
        let columns = [Column::YesNo, small, Column::Number(2), large];
        assert_eq!(sheet.columns(), columns);
        assert_eq!(sheet.entries(), 1 + 10 + 3 + 28);
        assert_eq!(sheet.published(), 1 + 4 + 1 + 4);
        assert_eq!(sheet.multiplications(), 1 + 8 + 2 + 26);
        assert_eq!(sheet.tests(), 1 + 10 + 3 + 28);
        let published: Vec<usize> = sheet.published_entries().collect();
        assert_eq!(published, [0, 1, 2, 3, 4, 11, 14, 15, 16, 17]);
        assert_eq!((small.values(), small.largest()), (64, 49));
        assert_eq!((large.values(), large.largest()), (1 << 24, 16_769_025));
        assert_eq!(
            (Column::Point(1).values(), Column::Point(1).largest()),
            (4, 1)
        );
    }
}
