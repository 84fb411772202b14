//! From values to the list of entries.

use crate::field;
use crate::refusal;
use crate::sheet::{Column, Sheet};

/// The entries of a list of values, 4 bytes to a value. Refusal 5: "not one value per
/// column, or a value outside its column".
pub fn encode(sheet: &Sheet, values: &[u8]) -> Result<Vec<u64>, u32> {
    let columns = sheet.columns();
    if values.len() != field::WIDTH * columns.len() {
        return Err(refusal::VALUES);
    }
    let mut entries = Vec::with_capacity(sheet.entries());
    for (&column, value) in columns.iter().zip(field::words(values)) {
        if value >= column.values() {
            return Err(refusal::VALUES);
        }
        match column {
            Column::YesNo => entries.push(u64::from(value)),
            // "B entries; the chosen one is 1, the rest 0."
            Column::Choice(options) => {
                entries.extend((0..u32::from(options)).map(|option| u64::from(option == value)));
            }
            // "Entry v, then b bit entries, lowest first."
            Column::Number(bits) => {
                entries.push(u64::from(value));
                entries.extend(bits_of(value, bits));
            }
            // "The entries are v, the b bits of v, and the b bits of T - v."
            Column::Top(top) => {
                entries.push(u64::from(value));
                entries.extend(bits_of(value, column.bits()));
                entries.extend(bits_of(top - value, column.bits()));
            }
            // "Entries x, x × x, y, x × y, then b bits of x and b bits of y ... Its value is
            // the number x + 2^b × y."
            Column::Point(bits) => {
                let (x, y) = (value % (1 << bits), value >> bits);
                entries.extend([x, x * x, y, x * y].map(u64::from));
                entries.extend(bits_of(x, bits).chain(bits_of(y, bits)));
            }
        }
    }
    Ok(entries)
}

/// The lowest b bits of a number, lowest first.
fn bits_of(number: u32, bits: u8) -> impl Iterator<Item = u64> {
    (0..bits).map(move |bit| u64::from(number >> bit & 1))
}

#[cfg(test)]
mod tests {
    use super::*;

    fn bytes(values: &[u32]) -> Vec<u8> {
        values
            .iter()
            .flat_map(|value| value.to_le_bytes())
            .collect()
    }

    #[test]
    fn each_kind() {
        let sheet = Sheet::read(&[17, 18, 3, 19, 4]).unwrap();
        assert_eq!(
            encode(&sheet, &bytes(&[1, 2, 6])),
            Ok(vec![1, 0, 0, 1, 6, 0, 1, 1, 0])
        );
        for wrong in [[2, 0, 0], [0, 3, 0], [0, 0, 16], [u32::MAX, 0, 0]] {
            assert_eq!(encode(&sheet, &bytes(&wrong)), Err(refusal::VALUES));
        }
        assert_eq!(encode(&sheet, &bytes(&[1, 2])), Err(refusal::VALUES));
        assert_eq!(encode(&sheet, &bytes(&[1, 2, 3, 0])), Err(refusal::VALUES));
        assert_eq!(
            encode(&sheet, &bytes(&[1, 2, 3])[..11]),
            Err(refusal::VALUES)
        );
        assert_eq!(encode(&sheet, &[]), Err(refusal::VALUES));
    }

    #[test]
    fn up_to_a_top() {
        let sheet = Sheet::read(&[20, 5, 0, 0, 0, 17]).unwrap();
        for (value, v, rest) in [
            (0, [0, 0, 0], [1, 0, 1]),
            (1, [1, 0, 0], [0, 0, 1]),
            (4, [0, 0, 1], [1, 0, 0]),
            (5, [1, 0, 1], [0, 0, 0]),
        ] {
            let entries = [&[u64::from(value)][..], &v, &rest, &[1]].concat();
            assert_eq!(encode(&sheet, &bytes(&[value, 1])), Ok(entries));
        }
        // 6 and 7 have three bits too.
        for wrong in [6, 7, 8, 1 << 24, u32::MAX] {
            assert_eq!(encode(&sheet, &bytes(&[wrong, 1])), Err(refusal::VALUES));
        }
    }

    #[test]
    fn points() {
        let sheet = Sheet::read(&[21, 3, 17]).unwrap();
        for (value, entries) in [
            (0, [0, 0, 0, 0, 0, 0, 0, 0, 0, 0]),
            (6, [6, 36, 0, 0, 0, 1, 1, 0, 0, 0]),
            (8, [0, 0, 1, 0, 0, 0, 0, 1, 0, 0]),
            (5 + 8 * 3, [5, 25, 3, 15, 1, 0, 1, 1, 1, 0]),
            (63, [7, 49, 7, 49, 1, 1, 1, 1, 1, 1]),
        ] {
            let entries = [&entries[..], &[1]].concat();
            assert_eq!(encode(&sheet, &bytes(&[value, 1])), Ok(entries));
        }
        for wrong in [64, 65, 512, u32::MAX] {
            assert_eq!(encode(&sheet, &bytes(&[wrong, 1])), Err(refusal::VALUES));
        }
        let sheet = Sheet::read(&[21, 12]).unwrap();
        let entries = encode(&sheet, &bytes(&[(1 << 24) - 1])).unwrap();
        assert_eq!(entries[..4], [4_095, 16_769_025, 4_095, 16_769_025]);
        assert_eq!(entries[4..], [1; 24]);
    }
}
