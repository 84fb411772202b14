//! The line that best fits the points of a column.

use crate::joining::{add_up, pool};
use crate::refusal;
use crate::sheet::{Column, Sheet};

/// The three numbers of a line. By equation 1 of source document 001 the line of least squares
/// is y = intercept / determinant + slope / determinant × x.
#[derive(Clone, Copy, Debug, PartialEq, Eq)]
pub struct Line {
    /// D = n × sum of xx - (sum of x)^2.
    pub determinant: i64,
    /// n × sum of xy - sum of x × sum of y.
    pub slope: i64,
    /// Sum of xx × sum of y - sum of x × sum of xy.
    pub intercept: i64,
}

/// The line of a column, numbered from 1, off S joined closing messages. Order of refusals: S,
/// sheet, N, 4, column (2), 12, 18.
pub fn line(
    servers: u32,
    sheet: &[u8],
    limit: u32,
    joined: &[u8],
    column: u32,
) -> Result<Line, u32> {
    let sheet = pool(servers, sheet, limit)?;
    // "A number that names no column of kind 21 is refused 2, after 4."
    let first = first_total(&sheet, column).ok_or(refusal::LIMIT)?;
    let (count, totals) = add_up(servers, &sheet, limit, joined)?;
    let sums = [0, 1, 2, 3].map(|option| totals[first + option]);
    let line = Line::of(count, sums);
    // "A D of zero is refused 18, after every fault of the joined totals."
    if line.determinant == 0 {
        return Err(refusal::NO_LINE);
    }
    Ok(line)
}

impl Line {
    /// The line of a count and the totals of x, xx, y and xy. The count is at most 1,024 and the
    /// totals are below 2^31, so products are below 2^62 and nothing overflows.
    fn of(count: u32, totals: [u64; 4]) -> Line {
        let n = i64::from(count);
        let [x, xx, y, xy] = totals.map(|total| total as i64);
        Line {
            determinant: n * xx - x * x,
            slope: n * xy - x * y,
            intercept: xx * y - x * xy,
        }
    }
}

/// Where the totals of a column of kind 21 start; `None` when the number names none.
fn first_total(sheet: &Sheet, column: u32) -> Option<usize> {
    let before = usize::try_from(column).ok()?.checked_sub(1)?;
    match sheet.columns().get(before)? {
        Column::Point(_) => {
            let earlier = sheet.columns()[..before].iter();
            Some(earlier.map(|column| column.published()).sum())
        }
        _ => None,
    }
}
