//! The least count in the bytes of a table.

use super::{closes, opens, with_least, CLOSING, SHEET};
use crate::calls::Call;
use crate::fixture::Fixture;
use crate::layout::{put_short, Parts};
use crate::suite::{Suite, Verdict};
use crate::tables::{changed, fixtures};

/// Bytes 10 and 11 of a table at every stage: refused 11 by every call exactly where Q is outside 1 to N.
pub fn damaged(suite: &mut Suite) -> Verdict {
    for fixture in fixtures(suite)? {
        let calls = fixture.calls();
        for table in fixture.stages() {
            let returns = usize::from(table.bytes[4]);
            for least in (1..=returns).chain([0, returns + 1, returns + 2, 255, 256, 257, 1024, 32_768, 65_535]) {
                let good = (1..=returns).contains(&least);
                changed(suite, &calls, table, good, |t| put_short(&mut t.bytes, 10, least))?;
            }
            // N below Q.
            let most = with_least(table, returns);
            changed(suite, &calls, &most, false, |t| put_short(&mut t.bytes, 4, returns - 1))?;
        }
    }
    Ok(())
}

/// Closing compares both bytes of Q with both of the count of entered returns; all other calls do the same with any Q.
pub fn compared(suite: &mut Suite) -> Verdict {
    suite.seed(47);
    let opened = suite.check(&opens(1024, 1))?.map_or(Parts::default(), |done| done.table);
    let numbers = [0, 1, 2, 254, 255, 256, 257, 258, 511, 512, 513, 1023, 1024];
    for (entered, least) in numbers.into_iter().flat_map(|entered| numbers[1..].iter().map(move |&q| (entered, q))) {
        let table = with_least(&opened, least).with(|table| {
            put_short(&mut table.bytes, 6, 1024);
            put_short(&mut table.bytes, 8, entered);
        });
        suite.number(&closes(&table, CLOSING), if entered < least { 15 } else { 0 })?;
    }
    for fixture in [Fixture::new(suite, 2, 1, &SHEET, 9)?, Fixture::among(suite, 3, 0, &SHEET, 10, 3)?] {
        for call in fixture.on_next() {
            let one = suite.check(&call)?;
            for least in [2, 9] {
                let many = suite.check(&Call { table: with_least(&call.table, least), ..call.clone() })?;
                let same = many.map(|mut done| {
                    done.table = with_least(&done.table, 1);
                    done
                });
                if same != one || one.is_err() {
                    return Err(suite.failure(&call, &format!("otherwise with Q = {least}")));
                }
            }
        }
    }
    Ok(())
}
