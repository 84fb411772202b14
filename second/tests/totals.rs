//! What comes out of a pool: the true sums, and little else.

mod common;

use common::*;
use second::field::{self, P};
use second::gen::{self, added_up, lets_in, Origin, Return, Rng};
use second::{close, drop, fast, join, make, share};
use second::{Circuit, Column, Joined, Sheet, Verdict};

/// Adds values to the published sums.
fn add_values(sheet: &Sheet, values: &[u8], sums: &mut [u64]) {
    let mut at = 0;
    for (column, value) in sheet.columns().iter().zip(values.chunks(4)) {
        let value = u32::from_le_bytes(value.try_into().unwrap());
        match *column {
            Column::Choice(options) => {
                sums[at + value as usize] += 1;
                at += usize::from(options);
            }
            Column::Point(bits) => {
                let (x, y) = (u64::from(value) % (1 << bits), u64::from(value) >> bits);
                for (sum, term) in sums[at..].iter_mut().zip([x, x * x, y, x * y]) {
                    *sum += term;
                }
                at += 4;
            }
            _ => {
                sums[at] += u64::from(value);
                at += 1;
            }
        }
    }
}

/// Takes returns of random values through a pool of a sheet.
fn pool(rng: &mut Rng, bytes: &[u8]) {
    let sheet = Sheet::read(bytes).unwrap();
    let servers = rng.between(2, 8) as u32;
    let returns = if sheet.entries() > 100 { 2 } else { 6 };
    let limit = gen::largest_limit(&sheet).min(returns + 2);
    let mut tables = open_all(servers, bytes, limit);
    let mut expected = vec![0u64; sheet.published()];
    for id in 0..returns {
        let values = gen::values(rng, &sheet);
        let count = (servers as usize - 1) * sheet.share_elements() + 4;
        let random = gen::elements(rng, count);
        let messages = make(bytes, servers, id, &values, &random, ROOM).unwrap();
        let (r, s) = gen::pair(rng, sheet.multiplications());
        let verdict = take(&mut tables, &split(&sheet, &messages), r, s);
        assert_eq!(verdict, Verdict::Accepted);
        add_values(&sheet, &values, &mut expected);
    }
    let closings = tables.iter_mut().map(|table| close(table, ROOM).unwrap());
    let joined = closings.collect::<Vec<_>>().concat();
    let totals: Vec<u32> = expected.iter().map(|&total| total as u32).collect();
    assert!(expected.iter().all(|&total| total < P));
    assert_eq!(
        join(servers, bytes, limit, &joined, ROOM),
        Ok(Joined {
            count: returns,
            totals: words(&totals),
        })
    );
}

/// Values in, true sums out, for sheets of every kind and up to 256 entries.
#[test]
fn true_sums() {
    let mut rng = Rng::new(6);
    let mut sheets = vec![
        vec![17; 256],
        vec![18, 64, 18, 64, 18, 64, 18, 64],
        [19, 24].repeat(10).into_iter().chain([19, 5]).collect(),
        [19, 1].repeat(128),
        [18, 2].repeat(128),
        longest_sheet(),
        largest_sheet(),
        [21, 12].repeat(9),
        [21, 1].repeat(42),
    ];
    for max in [1, 2, 5, 10, 20, 40, 80] {
        for _ in 0..6 {
            sheets.push(gen::sheet(&mut rng, max));
        }
    }
    for bytes in sheets {
        pool(&mut rng, &bytes);
    }
}

/// N at its greatest: 1,024 decided returns, some of them dropped.
#[test]
fn a_full_pool() {
    let mut rng = Rng::new(7);
    let mut tables = open_all(2, &[17], 1024);
    let (mut count, mut total) = (0, 0);
    for id in 0..1024 {
        let value = rng.below(2) as u32;
        let random = gen::elements(&mut rng, 13);
        let messages = make(&[17], 2, id, &words(&[value]), &random, 84).unwrap();
        let shares: Vec<Vec<u8>> = messages.chunks(42).map(<[u8]>::to_vec).collect();
        if rng.chance(10) {
            for (table, message) in tables.iter_mut().zip(&shares) {
                share(table, message, 2, 0, ONE_BYTES).unwrap();
                drop(table, id).unwrap();
            }
        } else {
            let (r, s) = gen::pair(&mut rng, 1);
            assert_eq!(take(&mut tables, &shares, r, s), Verdict::Accepted);
            count += 1;
            total += value;
        }
    }
    let mut joined = Vec::new();
    for table in &mut tables {
        assert_eq!(share(table, &[], 0, 0, 0), Err(13));
        joined.extend(close(table, 10).unwrap());
    }
    assert_eq!(
        join(2, &[17], 1024, &joined, 4),
        Ok(Joined {
            count,
            totals: words(&[total]),
        })
    );
}

/// The largest totals that open with the greatest top: 128 times 16,777,215 does not wrap.
#[test]
fn every_return_at_the_top() {
    let mut rng = Rng::new(10);
    let (sheet, top) = (top_column(16_777_215), 16_777_215);
    let shape = Sheet::read(&sheet).unwrap();
    let mut tables = open_all(2, &sheet, 128);
    for id in 0..128 {
        let random = gen::elements(&mut rng, shape.share_elements() + 4);
        let messages = fast::make(&sheet, 2, id, &words(&[top]), &random, ROOM).unwrap();
        let (r, s) = gen::pair(&mut rng, 48);
        let verdict = take(&mut tables, &split(&shape, &messages), r, s);
        assert_eq!(verdict, Verdict::Accepted);
    }
    let closings = tables.iter_mut().map(|table| close(table, ROOM).unwrap());
    let joined = closings.collect::<Vec<_>>().concat();
    assert_eq!(
        join(2, &sheet, 128, &joined, 4),
        Ok(Joined {
            count: 128,
            totals: words(&[2_147_483_520]),
        })
    );
}

/// Hours, and what is said to be left to 200.
const HOURS: [(u64, u64); 11] = [
    (200, 0),
    (0, 200),
    (199, 1),
    (201, 255),
    (201, 0),
    (201, 1),
    (255, 55),
    (255, 201),
    (200, 1),
    (0, 0),
    (256, 200),
];

/// Hours of 201 to 255 with a top of 200, the bits of v right, the others the bits of any
/// number: made as a workshop makes a return, and rejected. With hours up to 200 and the bits of
/// what is left to 200 it is accepted.
#[test]
fn hours_past_the_top() {
    let sheet = Sheet::read(&top_column(200)).unwrap();
    let mut rng = Rng::new(12);
    for (value, rest) in HOURS {
        let bits = |number: u64| (0..8).map(move |j| number >> j & 1);
        let entries: Vec<u64> = std::iter::once(value)
            .chain(bits(value))
            .chain(bits(rest))
            .collect();
        let good = value + rest == 200;
        let given = Return::of_entries(&mut rng, &sheet, 3, 1, &entries);
        let mut tables = open_all(3, &top_column(200), 10);
        // Hours that are entered, so that the pool closes.
        let other = honest(&top_column(200), 3, 2);
        take(&mut tables, &other, 1000, 5);
        let (_, second, verdict) = judge(&mut tables, &given.shares, given.r, 5);
        assert_eq!(verdict == Verdict::Accepted, good, "{value} {rest}");
        if good {
            enter_all(&mut tables, 1);
        }
        // The polynomials are those of the entries: a test tells.
        assert_eq!(sums(&second).0, 0);
        let hours = added_up(&sheet, &other).unwrap()[0] as u32;
        let total = hours + if good { value as u32 } else { 0 };
        let closings = tables.iter_mut().map(|table| close(table, ROOM).unwrap());
        let joined = closings.collect::<Vec<_>>().concat();
        let (count, totals) = (1 + u32::from(good), words(&[total]));
        let answer = join(3, &top_column(200), 10, &joined, 4);
        assert_eq!(answer, Ok(Joined { count, totals }));
    }
}

/// At most so many pairs let a false return in: for the smallest circuit, count them over
/// small r and s.
#[test]
fn few_pairs_let_a_false_return_in() {
    let sheet = Sheet::read(&[17]).unwrap();
    let mut rng = Rng::new(8);
    for origin in [Origin::FalseEntries, Origin::Forged, Origin::Lucky] {
        for _ in 0..10 {
            let given = Return::random(&mut rng, &sheet, 2, 1, origin);
            let whole = added_up(&sheet, &given.shares).unwrap();
            if Circuit::of(&sheet).is_valid(&whole[..1]) == Some(true) {
                continue;
            }
            // r × (f g - h) + c - a b has degree at most 2M + 1; with one test, s has no say.
            let pairs = (2..200)
                .filter(|&r| lets_in(&sheet, &whole, r, 3) == Some(true))
                .count();
            assert!(pairs <= 3, "{pairs} of {origin:?}");
        }
    }
}

#[test]
fn a_dropped_share_leaves_no_trace_in_the_totals() {
    let sheet = Sheet::read(&[19, 4]).unwrap();
    let mut rng = Rng::new(9);
    let mut make = |id| Return::random(&mut rng, &sheet, 2, id, Origin::Honest);
    let (given, other) = (make(1), make(2));
    let mut tables = open_all(2, &[19, 4], 3);
    take(&mut tables, &other.shares, other.r, other.s);
    for (own, table) in tables.iter_mut().enumerate() {
        share(table, &given.shares[own], given.r, given.s, ONE_BYTES).unwrap();
        drop(table, 1).unwrap();
        let total = field::elements(&other.shares[own][6..10]).unwrap()[0] as u32;
        assert_eq!(close(table, 10), Ok(closing(own as u8, 1, &[total])));
    }
}
