//! The line of a column of points.

mod common;

use common::*;
use second::gen::{Case, CaseAnswer, Fit, Rng, Script};
use second::{join, line, Column, Line, Sheet};

/// Closing messages of two servers that join to a count and totals.
fn joined(count: u32, totals: &[u32]) -> Vec<u8> {
    let own: Vec<u32> = (1..).zip(totals).map(|(i, _)| 1_000_000_007 + i).collect();
    let rest = totals.iter().zip(&own).map(|(&total, &own)| {
        let rest = u64::from(total) + u64::from(P32) - u64::from(own);
        (rest % u64::from(P32)) as u32
    });
    let rest: Vec<u32> = rest.collect();
    [closing(0, count, &rest), closing(1, count, &own)].concat()
}

fn found(determinant: i64, slope: i64, intercept: i64) -> Result<Line, u32> {
    Ok(Line {
        determinant,
        slope,
        intercept,
    })
}

/// Points by hand: (1, 1), (2, 3), (3, 5) lie on y = 2x - 1.
#[test]
fn by_hand() {
    // n = 3, sums 6, 14, 9, 22: D = 42 - 36, 66 - 54, 126 - 132.
    let run = joined(3, &[6, 14, 9, 22]);
    assert_eq!(line(2, &[21, 3], 3, &run, 1), found(6, 12, -6));
    assert_eq!(line(2, &[21, 12], 128, &run, 1), found(6, 12, -6));
    // (0, 4), (2, 0): y = 4 - 2x.
    let run = joined(2, &[2, 4, 4, 0]);
    assert_eq!(line(2, &[21, 3], 5, &run, 1), found(4, -8, 16));
    // (0, 1), (1, 0), (2, 3): D = 6, and the line is 1/3 + x.
    let run = joined(3, &[3, 5, 4, 6]);
    assert_eq!(line(2, &[21, 2], 5, &run, 1), found(6, 6, 2));
}

#[test]
fn all_x_equal() {
    for (count, totals) in [
        (0, [0, 0, 0, 0]),
        (0, [0, 5, 6, 7]),
        (1, [3, 9, 2, 6]),
        (2, [6, 18, 9, 27]),
        (5, [0, 0, 9, 0]),
    ] {
        assert_eq!(line(2, &[21, 3], 5, &joined(count, &totals), 1), Err(18));
    }
    // One of them differs.
    let run = joined(3, &[3 + 3 + 4, 9 + 9 + 16, 0, 0]);
    assert_eq!(line(2, &[21, 3], 5, &run, 1), found(2, 0, 0));
}

/// Totals that keep no form, up to the largest: D may be negative.
#[test]
fn any_totals() {
    let p = i64::from(P32);
    let m = P32 - 1;
    for (count, totals, answer) in [
        (0, [1, 0, 0, 0], found(-1, 0, 0)),
        (0, [m, 0, 0, 0], found(-(p - 1) * (p - 1), 0, 0)),
        (
            0,
            [m, m, m, m],
            found(-(p - 1) * (p - 1), -(p - 1) * (p - 1), 0),
        ),
        (
            1024,
            [0, m, m, m],
            found(1024 * (p - 1), 1024 * (p - 1), (p - 1) * (p - 1)),
        ),
        (
            1024,
            [m, 0, 0, m],
            found(-(p - 1) * (p - 1), 1024 * (p - 1), -(p - 1) * (p - 1)),
        ),
        (2, [3, 4, 5, 6], found(-1, -3, 2)),
    ] {
        let run = joined(count, &totals);
        assert_eq!(
            line(2, &[21, 1], 1024, &run, 1),
            answer,
            "{count} {totals:?}"
        );
    }
}

/// The totals are those of the named column.
#[test]
fn columns() {
    let sheet = [17, 21, 3, 18, 3, 21, 2, 19, 4];
    let run = joined(3, &[2, 6, 14, 9, 22, 1, 1, 1, 3, 5, 4, 6, 9]);
    assert_eq!(line(2, &sheet, 3, &run, 2), found(6, 12, -6));
    assert_eq!(line(2, &sheet, 3, &run, 4), found(6, 6, 2));
    for column in [0, 1, 3, 5, 6, 7, 256, 258, 65_538, u32::MAX] {
        assert_eq!(line(2, &sheet, 3, &run, column), Err(2));
        assert_eq!(line(2, &sheet, 3, &[], column), Err(2));
    }
}

/// Every two faults at once: the earlier wins.
#[test]
fn order_of_refusals() {
    let wide = [21, 12];
    let level = joined(2, &[6, 18, 9, 27]);
    assert_eq!(line(9, &[22], 0, &[], 0), Err(2));
    assert_eq!(line(258, &wide, 3, &level, 1), Err(2));
    assert_eq!(line(2, &[22], 0, &[], 0), Err(1));
    assert_eq!(line(2, &[21, 13], 0, &[], 0), Err(2));
    assert_eq!(line(2, &wide, 0, &[], 1), Err(2));
    assert_eq!(line(2, &wide, 1025, &[], 1), Err(2));
    assert_eq!(line(2, &wide, 129, &[], 0), Err(4));
    assert_eq!(line(2, &wide, 129, &level, 1), Err(4));
    assert_eq!(line(2, &[19, 24, 21, 1], 129, &[], 1), Err(4));
    assert_eq!(line(2, &wide, 128, &[], 0), Err(2));
    assert_eq!(line(2, &wide, 128, &[], 2), Err(2));
    assert_eq!(line(2, &wide, 128, &[], 1), Err(12));
    assert_eq!(line(2, &wide, 1, &level, 1), Err(12));
    assert_eq!(line(2, &wide, 128, &level, 1), Err(18));
    // Every fault of the totals comes before 18.
    for at in 0..level.len() {
        let mut wrong = level.clone();
        wrong[at] ^= 0x80;
        let number = if join(2, &wide, 128, &wrong, ROOM).is_ok() {
            continue;
        } else {
            12
        };
        assert_eq!(line(2, &wide, 128, &wrong, 1), Err(number), "{at}");
    }
    for length in 0..level.len() {
        assert_eq!(line(2, &wide, 128, &level[..length], 1), Err(12));
    }
}

/// Of all sets of three points of two bits, D is zero exactly where all x are equal.
#[test]
fn zero_exactly_where_all_x_are_equal() {
    let points: Vec<(u32, u32)> = (0..16).map(|value| (value % 4, value / 4)).collect();
    for &a in &points {
        for &b in &points {
            for &c in &points {
                let sums = [a, b, c].iter().fold([0; 4], |sums, &(x, y)| {
                    let terms = [x, x * x, y, x * y];
                    std::array::from_fn(|i| sums[i] + terms[i])
                });
                let level = a.0 == b.0 && b.0 == c.0;
                let answer = line(2, &[21, 2], 3, &joined(3, &sums), 1);
                assert_eq!(answer.is_err(), level);
                // A line through three points in a row meets them.
                if let Ok(Line {
                    determinant,
                    slope,
                    intercept,
                }) = answer
                {
                    let miss = |(x, y): (u32, u32)| {
                        determinant * i64::from(y) - slope * i64::from(x) - intercept
                    };
                    // Residuals add up to 0, with x as weight too.
                    assert_eq!(miss(a) + miss(b) + miss(c), 0);
                    let weighed = |p: (u32, u32)| i64::from(p.0) * miss(p);
                    assert_eq!(weighed(a) + weighed(b) + weighed(c), 0);
                }
            }
        }
    }
}

/// Random cases against the numbers that joining gives.
#[test]
fn from_what_joining_gives() {
    let mut rng = Rng::new(81);
    let mut met = [0; 20];
    for _ in 0..6000 {
        let case = Case::random_line(&mut rng);
        let Case::Line(x) = &case else {
            panic!("{case:?}");
        };
        let expected = from_joining(x);
        let answer = line(x.servers, &x.sheet, x.limit, &x.joined, x.column);
        assert_eq!(answer, expected, "{case:?}");
        met[expected.err().unwrap_or(0) as usize] += 1;
    }
    for number in [0, 1, 2, 4, 12, 18] {
        assert!(met[number] > 40, "{number}: {met:?}");
    }
    assert!(met[0] > 2000, "{met:?}");
}

/// The same worked out from joining, in wide numbers.
fn from_joining(x: &Fit) -> Result<Line, u32> {
    let answer = join(x.servers, &x.sheet, x.limit, &x.joined, ROOM);
    if let Err(number @ 1..=4) = answer {
        return Err(number);
    }
    let read = Sheet::read(&x.sheet).unwrap();
    let mut at = 0;
    let mut own = None;
    for (number, column_read) in (1..).zip(read.columns()) {
        if number == x.column && matches!(column_read, Column::Point(_)) {
            own = Some(at);
        }
        at += column_read.published();
    }
    let at = own.ok_or(2u32)?;
    let answer = answer?;
    let (numbers, _) = answer.totals.as_chunks::<4>();
    let total = |i: usize| i128::from(u32::from_le_bytes(numbers[at + i]));
    let (n, x, xx, y, xy) = (
        i128::from(answer.count),
        total(0),
        total(1),
        total(2),
        total(3),
    );
    if n * xx == x * x {
        return Err(18);
    }
    found(
        (n * xx - x * x).try_into().unwrap(),
        (n * xy - x * y).try_into().unwrap(),
        (xx * y - x * xy).try_into().unwrap(),
    )
}

/// Scripts of pools with points end in lines.
#[test]
fn lines_of_scripts() {
    let mut met = 0;
    for seed in 0..300 {
        let script = Script::random(seed);
        for exchange in &script.joins {
            if let Case::Line(_) = exchange.case {
                assert_eq!(exchange.case.fast(), exchange.answer);
                met += usize::from(matches!(exchange.answer, CaseAnswer::Line(_)));
            }
        }
    }
    assert!(met > 15, "{met}");
}
