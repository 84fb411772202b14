//! Columns of points: their circuits, and returns with false products.

mod common;

use common::*;
use second::field::P;
use second::gen::{added_up, Return, Rng};
use second::values::encode;
use second::{close, fast, join, line};
use second::{Circuit, Joined, Line, Sheet, Step, Verdict};

/// The steps of a bit check whose first wire has this number.
fn bit_check(entry: u16, wire: u16) -> [Step; 4] {
    [
        Step::Entry(entry),
        Step::Add(wire, 0),
        Step::Multiply(wire, wire + 1),
        Step::Test(wire + 2),
    ]
}

/// The circuit of a sheet has these steps.
fn check(sheet: &[u8], parts: &[&[Step]]) {
    let circuit = Circuit::of(&Sheet::read(sheet).unwrap());
    assert_eq!(circuit.steps(), parts.concat());
}

#[test]
fn one_bit_by_hand() {
    use Step::*;
    let start = [Constant(P - 1)];
    let entries = [Entry(0), Entry(1), Entry(2), Entry(3)];
    let x = [Scale(1, P - 1), Scale(5, 1), Add(8, 9), Test(10)];
    let y = [Scale(3, P - 1), Scale(11, 1), Add(14, 15), Test(16)];
    let square = [Multiply(1, 1), Scale(2, P - 1), Add(17, 18), Test(19)];
    let product = [Multiply(1, 3), Scale(4, P - 1), Add(20, 21), Test(22)];
    let (low, high) = (bit_check(4, 5), bit_check(5, 11));
    check(
        &[21, 1],
        &[&start, &entries, &low, &x, &high, &y, &square, &product],
    );
}

/// Two bits, after a yes/no.
#[test]
fn two_bits_by_hand() {
    use Step::*;
    let start = [Constant(P - 1)];
    let entries = [Entry(1), Entry(2), Entry(3), Entry(4)];
    let x_bits = [bit_check(5, 8), bit_check(6, 11)].concat();
    let x = [
        Scale(4, P - 1),
        Scale(8, 1),
        Add(14, 15),
        Scale(11, 2),
        Add(16, 17),
        Test(18),
    ];
    let y_bits = [bit_check(7, 19), bit_check(8, 22)].concat();
    let y = [
        Scale(6, P - 1),
        Scale(19, 1),
        Add(25, 26),
        Scale(22, 2),
        Add(27, 28),
        Test(29),
    ];
    let square = [Multiply(4, 4), Scale(5, P - 1), Add(30, 31), Test(32)];
    let product = [Multiply(4, 6), Scale(7, P - 1), Add(33, 34), Test(35)];
    let yes_no = bit_check(0, 1);
    let numbers = [&x_bits[..], &x, &y_bits, &y].concat();
    check(
        &[17, 21, 2],
        &[&start, &yes_no, &entries, &numbers, &square, &product],
    );
}

/// A point with claimed products is valid exactly when they are the products.
#[test]
fn false_products() {
    let sheet = Sheet::read(&[21, 2]).unwrap();
    let circuit = Circuit::of(&sheet);
    for value in 0..16u64 {
        let (x, y) = (value % 4, value / 4);
        let true_entries = encode(&sheet, &words(&[value as u32])).unwrap();
        for square in (0..20).chain([P - 1, P - x]) {
            for product in (0..20).chain([P - 1, P - y]) {
                let mut entries = true_entries.clone();
                (entries[1], entries[3]) = (square % P, product % P);
                let valid = square % P == x * x && product % P == x * y;
                assert_eq!(circuit.is_valid(&entries), Some(valid));
            }
        }
    }
}

/// Returns of points with false products, made as a workshop makes a return: rejected by a test.
/// Honest ones are accepted.
#[test]
fn false_returns() {
    let bytes = [21, 3, 17];
    let sheet = Sheet::read(&bytes).unwrap();
    let mut rng = Rng::new(71);
    let true_entries = encode(&sheet, &words(&[5 + 8 * 3, 1])).unwrap();
    assert_eq!(true_entries[..4], [5, 25, 3, 15]);
    for (at, entry) in [
        (1, 25),
        (1, 26),
        (1, 9),
        (1, 0),
        (3, 15),
        (3, 25),
        (3, 9),
        (3, P - 15),
        (0, 3),
        (2, 5),
        (4, 0),
        (7, 0),
        (10, 0),
    ] {
        let mut entries = true_entries.clone();
        entries[at] = entry;
        let good = Circuit::of(&sheet).is_valid(&entries) == Some(true);
        assert_eq!(good, entries == true_entries || at == 10);
        let given = Return::of_entries(&mut rng, &sheet, 3, 1, &entries);
        let mut tables = open_all(3, &bytes, 10);
        let (_, second, verdict) = judge(&mut tables, &given.shares, given.r, 5);
        assert_eq!(verdict == Verdict::Accepted, good, "{at} {entry}");
        assert_eq!(sums(&second).0, 0);
    }
}

/// The points of a pool, and the largest ones: 128 times 4,095^2 does not wrap.
#[test]
fn a_whole_pool() {
    let bytes = [17, 21, 12, 19, 3];
    let sheet = Sheet::read(&bytes).unwrap();
    let mut rng = Rng::new(72);
    for all_largest in [false, true] {
        let mut tables = open_all(2, &bytes, 128);
        let mut totals = [0u64; 6];
        for id in 0..128 {
            let any = rng.below(1 << 24) as u32;
            let point = if all_largest { (1 << 24) - 1 } else { any };
            let (x, y) = (u64::from(point % 4096), u64::from(point / 4096));
            let random = second::gen::elements(&mut rng, sheet.share_elements() + 4);
            let values = words(&[1, point, 7]);
            let made = fast::make(&bytes, 2, id, &values, &random, ROOM).unwrap();
            let shares = split(&sheet, &made);
            let whole = added_up(&sheet, &shares).unwrap();
            assert_eq!(whole[1..5], [x, x * x, y, x * y]);
            let verdict = take(&mut tables, &shares, 1000 + u64::from(id), 77);
            assert_eq!(verdict, Verdict::Accepted);
            for (total, term) in totals.iter_mut().zip([1, x, x * x, y, x * y, 7]) {
                *total += term;
            }
        }
        let closings = tables.iter_mut().map(|table| close(table, ROOM).unwrap());
        let joined = closings.collect::<Vec<_>>().concat();
        let answer = Joined {
            count: 128,
            totals: words(&totals.map(|total| total as u32)),
        };
        assert_eq!(join(2, &bytes, 128, &joined, ROOM), Ok(answer));
        match line(2, &bytes, 128, &joined, 2) {
            Err(number) => assert!(all_largest && number == 18),
            Ok(found) => is_line(found, totals),
        }
    }
}

/// The line of 128 returns, by the totals of the second column.
fn is_line(found: Line, totals: [u64; 6]) {
    let [_, x, xx, y, xy, _] = totals.map(i128::from);
    assert_eq!(i128::from(found.determinant), 128 * xx - x * x);
    assert_eq!(i128::from(found.slope), 128 * xy - x * y);
    assert_eq!(i128::from(found.intercept), xx * y - x * xy);
}
