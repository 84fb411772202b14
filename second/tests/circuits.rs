//! The circuits of sheets, and the lists they let through.

mod common;

use common::*;
use second::field::P;
use second::gen::{self, Rng};
use second::values::encode;
use second::{circuit, read_circuit, Circuit, Column, Sheet, Step};

/// Wires and circuit bytes of a column, without the constant at the start.
fn size(column: Column) -> (usize, usize) {
    let check = 3 + 5 + 5 + 3;
    match column {
        Column::YesNo => (3, check),
        Column::Choice(options) => {
            let b = usize::from(options);
            (4 * b, (check + 5) * b + 3)
        }
        Column::Number(bits) => {
            let b = usize::from(bits);
            (2 + 5 * b, 3 + check * b + 7 + (7 + 5) * b + 3)
        }
        Column::Top(top) => {
            let b = top.ilog2() as usize + 1;
            let (first, second) = (7 + (7 + 5) * b + 3, 5 + 5 + (7 + 5) * b + 3);
            (4 + 10 * b, 3 + check * 2 * b + first + second)
        }
        Column::Point(bits) => {
            let b = usize::from(bits);
            let number = check * b + 7 + (7 + 5) * b + 3;
            let product = 5 + 7 + 5 + 3;
            (12 + 10 * b, 4 * 3 + 2 * number + 2 * product)
        }
    }
}

#[test]
fn every_sheet_circuit_is_read_with_the_sheets_counts() {
    let mut rng = Rng::new(1);
    for _ in 0..400 {
        let bytes = gen::sheet(&mut rng, 256);
        let sheet = Sheet::read(&bytes).unwrap();
        let steps = circuit(&bytes, ROOM).unwrap();
        let read = read_circuit(sheet.entries() as u32, &steps).unwrap();
        assert_eq!(read, Circuit::of(&sheet));
        assert_eq!(read.entries(), sheet.entries());
        assert_eq!(read.multiplications(), sheet.multiplications());
        assert_eq!(read.tests(), sheet.tests());
        let sizes: Vec<_> = sheet.columns().iter().map(|&c| size(c)).collect();
        let wires: usize = sizes.iter().map(|size| size.0).sum();
        let length: usize = sizes.iter().map(|size| size.1).sum();
        assert_eq!(read.wires(), 1 + wires);
        assert_eq!(steps.len(), 5 + length);
        // One entry fewer: the last entry is not below L.
        if sheet.entries() > 1 {
            assert_eq!(read_circuit(sheet.entries() as u32 - 1, &steps), Err(3));
        }
    }
}

/// The most that a count comes to over all sheets, a best choice of columns for each number of
/// entries. Columns of one kind with the same b are alike.
fn most(count: impl Fn(Column) -> usize) -> usize {
    let columns: Vec<Column> = std::iter::once(Column::YesNo)
        .chain((2..=64).map(Column::Choice))
        .chain((1..=24).map(Column::Number))
        .chain(tops().map(Column::Top))
        .chain((1..=12).map(Column::Point))
        .collect();
    let mut best = vec![0; 257];
    for entries in 1..=256 {
        best[entries] = columns
            .iter()
            .filter(|column| column.entries() <= entries)
            .map(|&column| best[entries - column.entries()] + count(column))
            .max()
            .unwrap();
    }
    best[256]
}

/// The bytes of a column in a sheet.
fn sheet_bytes(column: Column) -> usize {
    match column {
        Column::YesNo => 1,
        Column::Choice(_) | Column::Number(_) | Column::Point(_) => 2,
        Column::Top(_) => 5,
    }
}

#[test]
fn largest_circuit_of_a_sheet() {
    assert_eq!(5 + most(|column| size(column).1), 7_161);
    assert_eq!(1 + most(|column| size(column).0), 1_275);
    assert_eq!(most(Column::multiplications), 256);
    assert_eq!(most(Column::tests), 384);
    assert_eq!(most(Column::published), 256);
    assert_eq!(most(|_| 1), 256);
    assert_eq!(most(sheet_bytes), 426);
    let elements = |column: Column| column.entries() + 2 * column.multiplications();
    assert_eq!(most(elements) + 6, 774);
    assert_eq!(6 + 4 * (most(elements) + 6), 3_102);
    // Sheets that come to these.
    let read = Circuit::of(&Sheet::read(&largest_sheet()).unwrap());
    assert_eq!((read.bytes().len(), read.wires()), (7_161, 1_275));
    let longest = longest_sheet();
    assert_eq!(longest.len(), 426);
    assert!(Sheet::read(&longest).is_ok());
}

/// The steps of a bit check whose first wire has this number.
fn bit_check(entry: u16, wire: u16) -> [Step; 4] {
    [
        Step::Entry(entry),
        Step::Add(wire, 0),
        Step::Multiply(wire, wire + 1),
        Step::Test(wire + 2),
    ]
}

#[test]
fn choice_and_number_by_hand() {
    use Step::*;
    let check = |sheet: &[u8], parts: &[&[Step]]| {
        let circuit = Circuit::of(&Sheet::read(sheet).unwrap());
        assert_eq!(circuit.steps(), parts.concat());
    };
    let start = [Constant(P - 1)];
    let sum = [Add(0, 1), Add(7, 4), Test(8)];
    check(
        &[18, 2],
        &[&start, &bit_check(0, 1), &bit_check(1, 4), &sum],
    );
    let yes_no = bit_check(0, 1);
    let value = [Entry(1)];
    let sum = [
        Scale(4, P - 1),
        Scale(5, 1),
        Add(11, 12),
        Scale(8, 2),
        Add(13, 14),
        Test(15),
    ];
    let (low, high) = (bit_check(2, 5), bit_check(3, 8));
    check(&[17, 19, 2], &[&start, &yes_no, &value, &low, &high, &sum]);
}

#[test]
fn top_by_hand() {
    use Step::*;
    let check = |sheet: &[u8], parts: &[&[Step]]| {
        let circuit = Circuit::of(&Sheet::read(sheet).unwrap());
        assert_eq!(circuit.steps(), parts.concat());
    };
    let start = [Constant(P - 1)];
    // T = 1: v, its bit, the bit of 1 - v.
    let checks = [bit_check(1, 2), bit_check(2, 5)].concat();
    let first = [Scale(1, P - 1), Scale(2, 1), Add(8, 9), Test(10)];
    let second = [
        Constant(P - 1),
        Add(11, 1),
        Scale(5, 1),
        Add(12, 13),
        Test(14),
    ];
    check(
        &[20, 1, 0, 0, 0],
        &[&start, &[Entry(0)], &checks, &first, &second],
    );
    // T = 2 after a yes/no: two bits of v, two of 2 - v.
    let checks: Vec<Step> = (0..4).flat_map(|k| bit_check(2 + k, 5 + 3 * k)).collect();
    let first = [
        Scale(4, P - 1),
        Scale(5, 1),
        Add(17, 18),
        Scale(8, 2),
        Add(19, 20),
        Test(21),
    ];
    let second = [
        Constant(P - 2),
        Add(22, 4),
        Scale(11, 1),
        Add(23, 24),
        Scale(14, 2),
        Add(25, 26),
        Test(27),
    ];
    let value = [Entry(1)];
    check(
        &[17, 20, 2, 0, 0, 0],
        &[&start, &bit_check(0, 1), &value, &checks, &first, &second],
    );
}

/// The tests of a list of a sheet that are not zero, by their number.
fn failing(sheet: &[u8], list: &[u64]) -> Vec<usize> {
    let circuit = Circuit::of(&Sheet::read(sheet).unwrap());
    let mut wires: Vec<u64> = Vec::new();
    let mut tests = Vec::new();
    for step in circuit.steps() {
        let wire = |number: u16| wires[usize::from(number)];
        wires.push(match *step {
            Step::Constant(constant) => constant,
            Step::Entry(entry) => list[usize::from(entry)],
            Step::Add(left, right) => (wire(left) + wire(right)) % P,
            Step::Scale(source, constant) => wire(source) * constant % P,
            Step::Multiply(left, right) => wire(left) * wire(right) % P,
            Step::Test(source) => {
                tests.push(wire(source));
                continue;
            }
        });
    }
    assert_eq!(
        circuit.is_valid(list),
        Some(tests.iter().all(|&wire| wire == 0))
    );
    (0..tests.len()).filter(|&k| tests[k] != 0).collect()
}

/// A value past the top that fits b bits: whatever bits stand second, the last test, and it
/// alone, tells.
#[test]
fn past_the_top() {
    for (top, bits) in [(2, 2), (4, 3), (5, 3), (6, 3), (200, 8)] {
        let bit = |number: u64, j: u64| number >> j & 1;
        for value in 0..1u64 << bits {
            let mut taken = Vec::new();
            for rest in 0..1u64 << bits {
                let mut list = vec![value];
                list.extend((0..bits).map(|j| bit(value, j)));
                list.extend((0..bits).map(|j| bit(rest, j)));
                let failing = failing(&top_column(top), &list);
                if failing.is_empty() {
                    taken.push(rest);
                } else {
                    assert_eq!(failing, [2 * bits as usize + 1]);
                }
            }
            let rest = u64::from(top).checked_sub(value);
            assert_eq!(taken, rest.into_iter().collect::<Vec<u64>>());
        }
    }
}

/// The lists of all values of a small sheet.
fn encodings(sheet: &Sheet) -> Vec<Vec<u64>> {
    let mut lists = vec![Vec::new()];
    for column in sheet.columns() {
        lists = lists
            .iter()
            .flat_map(|values: &Vec<u32>| {
                (0..column.values()).map(|value| [&values[..], &[value]].concat())
            })
            .collect();
    }
    let encode = |values: &Vec<u32>| encode(sheet, &words(values)).unwrap();
    lists.iter().map(encode).collect()
}

/// Every list of so many of a few elements.
fn lists(length: usize) -> impl Iterator<Item = Vec<u64>> {
    let elements = [0, 1, 2, 3, P - 1, P - 2];
    (0..elements.len().pow(length as u32)).map(move |number| {
        let digits = (0..length as u32).map(|place| number / elements.len().pow(place));
        digits
            .map(|digit| elements[digit % elements.len()])
            .collect()
    })
}

#[test]
fn valid_lists_are_the_encodings() {
    for sheet in [
        &[17][..],
        &[18, 2],
        &[18, 3],
        &[19, 1],
        &[19, 2],
        &[17, 18, 2],
        &[20, 1, 0, 0, 0],
        &[20, 2, 0, 0, 0],
        &[20, 3, 0, 0, 0],
        &[20, 1, 0, 0, 0, 17],
        &[21, 1],
    ] {
        let shape = Sheet::read(sheet).unwrap();
        let checks = Circuit::of(&shape);
        let encodings = encodings(&shape);
        let mut valid = 0;
        for list in lists(shape.entries()) {
            let expected = encodings.contains(&list);
            assert_eq!(checks.is_valid(&list), Some(expected), "{sheet:?} {list:?}");
            valid += usize::from(expected);
        }
        assert_eq!(valid, encodings.len());
        assert_eq!(checks.is_valid(&[]), None);
        assert_eq!(checks.is_valid(&vec![P; shape.entries()]), None);
    }
}

#[test]
fn encodings_are_valid() {
    let mut rng = Rng::new(2);
    for _ in 0..200 {
        let sheet = Sheet::read(&gen::sheet(&mut rng, 256)).unwrap();
        let list = encode(&sheet, &gen::values(&mut rng, &sheet)).unwrap();
        let checks = Circuit::of(&sheet);
        assert_eq!(checks.is_valid(&list), Some(true));
        let mut other = list.clone();
        let at = rng.index(other.len());
        other[at] = (other[at] + 1 + rng.below(P - 1)) % P;
        // A single changed entry keeps its form only as a yes/no.
        let yes_no = is_yes_no(&sheet, at) && other[at] < 2;
        assert_eq!(checks.is_valid(&other), Some(yes_no));
    }
}

/// Whether an entry belongs to a yes/no column.
fn is_yes_no(sheet: &Sheet, entry: usize) -> bool {
    let mut end = 0;
    for column in sheet.columns() {
        end += column.entries();
        if entry < end {
            return *column == Column::YesNo;
        }
    }
    false
}

#[test]
fn sheet_to_circuit_room() {
    assert_eq!(circuit(&[17], 20), Err(14));
    assert_eq!(circuit(&[17], 0), Err(14));
    assert_eq!(circuit(&[17], 21).map(|bytes| bytes.len()), Ok(21));
    // The sheet comes first.
    assert_eq!(circuit(&[], 0), Err(2));
    assert_eq!(circuit(&[20], 0), Err(1));
}
