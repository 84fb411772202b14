//! The line of a column of points: told by hand, from totals of every form, and of pools.

use second::gen::{Case, Rng};
use second::{Column, Sheet};

use crate::calls::{found, Call, Function, Outcome};
use crate::layout::put_word;
use crate::scripts::line_call;
use crate::suite::{Suite, Verdict};

const P: u64 = 2_147_483_647;

/// The line of a column off totals messages of S servers that join to these totals.
fn call(rng: &mut Rng, servers: u32, sheet: &[u8], returns: u32, count: u32, totals: &[u64], column: u32) -> Call {
    let mut rest = totals.to_vec();
    let mut message = Vec::new();
    for server in 0..servers {
        message.extend([36, server as u8]);
        message.extend(count.to_le_bytes());
        for left in &mut rest {
            let own = if server + 1 == servers { *left } else { rng.below(P) };
            *left = (*left + P - own) % P;
            message.extend((own as u32).to_le_bytes());
        }
    }
    Call { servers, sheet: sheet.to_vec(), returns, message, column, ..Call::of(Function::Line) }
}

/// The line of a count and four totals, in wide numbers: 18 for a determinant of 0.
fn line(count: u64, totals: &[u64]) -> Outcome {
    let [n, x, xx, y, xy] = [count, totals[0], totals[1], totals[2], totals[3]].map(i128::from);
    let wide = [n * xx - x * x, n * xy - x * y, xx * y - x * xy];
    let [determinant, slope, intercept] = wide.map(|number| number as i64);
    match determinant {
        0 => Err(18),
        _ => found(determinant, slope, intercept),
    }
}

/// The lines of all columns of a joining, off the count and the totals that it gives; 2 for those that are not of points.
pub fn of_columns(suite: &mut Suite, join: &Call, count: u64, totals: &[u64]) -> Verdict {
    let sheet = Sheet::read(&join.sheet).map_err(|number| format!("refused {number}"))?;
    let mut at = 0;
    for (number, column) in (1..).zip(sheet.columns()) {
        let call = Call { function: Function::Line, column: number, room: 0, ..join.clone() };
        let expected = match column {
            Column::Point(_) => line(count, &totals[at..]),
            _ => Err(2),
        };
        suite.gives(&call, expected)?;
        at += column.published();
    }
    Ok(())
}

/// (1, 1), (2, 3), (3, 5) lie on y = 2x - 1; others on lines that fall, and on none.
pub fn by_hand(suite: &mut Suite) -> Verdict {
    let mut rng = suite.seed(1);
    let rows: [(u32, [u64; 4], [i64; 3]); 5] = [
        (3, [6, 14, 9, 22], [6, 12, -6]),
        (2, [2, 4, 4, 0], [4, -8, 16]),
        (3, [3, 5, 4, 6], [6, 6, 2]),
        (2, [7, 49, 9, 28], [49, -7, 245]),
        (1024, [1023, 1_046_529, 0, 0], [1024 * 1_046_529 - 1023 * 1023, 0, 0]),
    ];
    for (count, totals, [determinant, slope, intercept]) in rows {
        for servers in 2..=8 {
            for (bits, returns) in [(3, count), (10, 1024)] {
                let call = call(&mut rng, servers, &[21, bits], returns, count, &totals, 1);
                suite.agrees(&call)?;
                suite.gives(&call, found(determinant, slope, intercept))?;
            }
        }
    }
    Ok(())
}

/// No return, one return, and returns with the same x are refused 18; with one other x they are not.
pub fn level(suite: &mut Suite) -> Verdict {
    let mut rng = suite.seed(2);
    let none = [(0, [0, 0, 0, 0]), (0, [0, 5, 6, 7]), (0, [0, P - 1, P - 1, P - 1])];
    for (count, totals) in none.into_iter().chain([(1, [4095, 4095 * 4095, 1, 4095]), (128, [0, 0, 700, 0])]) {
        suite.number(&call(&mut rng, 3, &[21, 12], 128, count, &totals, 1), 18)?;
    }
    for (bits, count) in [(1, 1024), (2, 3), (3, 1), (3, 5), (7, 1000), (11, 512), (12, 128)] {
        for x in [0, 1, (1 << bits) - 1] {
            let n = u64::from(count);
            let ys: u64 = (0..n).map(|_| rng.below(1 << bits)).sum();
            let totals = [n * x, n * x * x, ys, x * ys];
            suite.number(&call(&mut rng, 2, &[17, 21, bits], count, count, &[&[1], &totals[..]].concat(), 2), 18)?;
            // x of the last return, whose y is 0, becomes another.
            let other = if x == 0 { 1 } else { x - 1 };
            let rest = [(n - 1) * x + other, (n - 1) * x * x + other * other, ys, x * ys];
            let call = call(&mut rng, 2, &[21, bits], count, count, &rest, 1);
            suite.gives(&call, line(n, &rest))?;
            suite.number(&call, if count == 1 { 18 } else { 0 })?;
        }
    }
    Ok(())
}

/// Totals up to p - 1 that no points have: D may be negative, and nothing is cut.
pub fn formless(suite: &mut Suite) -> Verdict {
    let mut rng = suite.seed(3);
    let (p, m) = (P as i64, P - 1);
    let square = (p - 1) * (p - 1);
    let rows: [(u32, [u64; 4], [i64; 3]); 8] = [
        (0, [1, 0, 0, 0], [-1, 0, 0]),
        (2, [3, 4, 5, 6], [-1, -3, 2]),
        (0, [m, 0, 0, 0], [-square, 0, 0]),
        (0, [m, 0, m, 0], [-square, -square, 0]),
        (0, [m, 0, 0, m], [-square, 0, -square]),
        (1024, [0, m, m, m], [1024 * (p - 1), 1024 * (p - 1), square]),
        (1024, [m, m, m, m], [1024 * (p - 1) - square, 1024 * (p - 1) - square, 0]),
        (1024, [m, 0, m, 0], [-square, -square, 0]),
    ];
    for (count, totals, [determinant, slope, intercept]) in rows {
        for servers in [2, 8] {
            let call = call(&mut rng, servers, &[21, 1], 1024, count, &totals, 1);
            suite.agrees(&call)?;
            suite.gives(&call, found(determinant, slope, intercept))?;
        }
    }
    let ends = [0, 1, 2, P / 2, P / 2 + 1, P - 2, P - 1];
    for _ in 0..400 {
        let totals = [(); 4].map(|()| rng.pick(ends));
        let count = rng.pick([0, 1, 2, 1023, 1024]);
        let call = call(&mut rng, 2, &[21, 1], 1024, count, &totals, 1);
        suite.gives(&call, line(count.into(), &totals))?;
    }
    Ok(())
}

/// The totals are those of the named column, wherever it stands; 0, one past the last and other kinds are refused 2.
pub fn columns(suite: &mut Suite) -> Verdict {
    let mut rng = suite.seed(4);
    let sheet = [17, 21, 3, 18, 3, 21, 2, 19, 4, 20, 5, 0, 0, 0, 21, 1];
    let totals = [2, 6, 14, 9, 22, 1, 1, 1, 3, 5, 4, 6, 9, 5, 2, 2, 1, 0];
    let rows = [(2, Ok([6, 12, -6])), (4, Ok([6, 6, 2])), (7, Ok([2, -2, 2])), (0, Err(2)), (1, Err(2)), (3, Err(2))];
    let more =
        [(5, Err(2)), (6, Err(2)), (8, Err(2)), (256, Err(2)), (258, Err(2)), (65_538, Err(2)), (u32::MAX, Err(2))];
    for (column, answer) in rows.into_iter().chain(more) {
        let call = call(&mut rng, 3, &sheet, 3, 3, &totals, column);
        let expected = answer.and_then(|[determinant, slope, intercept]| found(determinant, slope, intercept));
        suite.agrees(&call)?;
        suite.gives(&call, expected)?;
        // A column that is none comes before faults of the totals, and after refusal 4.
        suite.number(&Call { message: Vec::new(), ..call }, answer.err().unwrap_or(12))?;
    }
    for (column, returns, number) in [(1, 128, 2), (1, 129, 4), (2, 129, 4), (0, 129, 4), (3, 129, 4), (3, 128, 2)] {
        suite.number(&call(&mut rng, 2, &[19, 24, 21, 1], returns, 0, &[0; 5], column), number)?;
    }
    // Columns of points at every place of a full sheet; the last columns need more than one byte to be counted.
    let sheet = [vec![17; 250], vec![21, 1]].concat();
    let totals = [vec![1; 250], vec![6, 14, 9, 22]].concat();
    for (column, number) in [(250, 2), (251, 0), (252, 2), (507, 2)] {
        suite.number(&call(&mut rng, 2, &sheet, 3, 3, &totals, column), number)?;
    }
    let (count, sheet) = (42, [21, 1].repeat(42));
    let totals: Vec<u64> = (0..4 * count).map(|k| 1000 + k * k).collect();
    for column in 1..=count {
        let call = call(&mut rng, 2, &sheet, 9, 9, &totals, column as u32);
        suite.gives(&call, line(9, &totals[4 * column as usize - 4..]))?;
    }
    Ok(())
}

/// Every byte of the totals changed, every length, and counts up to N: 12 comes before 18.
pub fn damaged(suite: &mut Suite) -> Verdict {
    let mut rng = suite.seed(5);
    for totals in [[7, 6, 14, 9, 22], [7, 6, 12, 9, 22]] {
        let base = call(&mut rng, 2, &[17, 21, 12], 5, 3, &totals, 2);
        suite.number(&base, if totals[2] == 14 { 0 } else { 18 })?;
        for at in 0..base.message.len() {
            for bit in 0..8 {
                let mut message = base.message.clone();
                message[at] ^= 1 << bit;
                let head = at % 26 < 6;
                let call = Call { message, ..base.clone() };
                suite.agrees(&call)?;
                if head {
                    suite.number(&call, 12)?;
                }
            }
        }
        for length in (0..base.message.len()).chain([53, 78, 104]) {
            let mut message = base.message.clone();
            message.resize(length, 36);
            suite.number(&Call { message, ..base.clone() }, 12)?;
        }
        for (count, number) in [(5, 0), (6, 12), (1025, 12), (65_539, 12), (u32::MAX, 12)] {
            let mut message = base.message.clone();
            [2, 28].into_iter().for_each(|at| put_word(&mut message, at, count.into()));
            suite.number(&Call { message, ..base.clone() }, number)?;
        }
        for at in (6..26).chain(32..52).step_by(4) {
            let mut message = base.message.clone();
            put_word(&mut message, at, P);
            suite.number(&Call { message, ..base.clone() }, 12)?;
        }
    }
    Ok(())
}

/// Random points of every number of bits, and the second program's single calls.
pub fn random(suite: &mut Suite) -> Verdict {
    let mut rng = suite.seed(6);
    for bits in 1..=12 {
        for _ in 0..12 {
            let servers = rng.between(2, 8) as u32;
            let count = rng.between(0, rng.clone().pick([2, 9, 128]));
            let mut totals = [0; 4];
            for _ in 0..count {
                let (x, y) = (rng.below(1 << bits), rng.below(1 << bits));
                totals.iter_mut().zip([x, x * x, y, x * y]).for_each(|(total, term)| *total += term);
            }
            let call = call(&mut rng, servers, &[21, bits], 128, count as u32, &totals, 1);
            suite.gives(&call, line(count, &totals))?;
        }
    }
    for _ in 0..500 {
        if let Case::Line(fit) = Case::random_line(&mut rng) {
            suite.agrees(&line_call(fit))?;
        }
    }
    Ok(())
}
