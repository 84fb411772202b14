//! Every legal return of a small sheet.

use second::gen::{self, Rng};
use second::Sheet;

use crate::calls::{plain, Call, Done, Function};
use crate::faults::{alone_and_in_pairs, fault, rooms, sheets};
use crate::layout::{put_word, words};
use crate::suite::{Suite, Verdict};
use crate::tops::top_column;

/// Enough for every sheet: 4,096 lists of 12 values.
const ROOM: usize = 196_608;

fn call(sheet: &[u8]) -> Call {
    Call { sheet: sheet.to_vec(), room: ROOM, ..Call::of(Function::EveryReturn) }
}

/// The bytes of a list of values.
fn bytes_of(list: &[u64]) -> Vec<u8> {
    list.iter().flat_map(|&value| (value as u32).to_le_bytes()).collect()
}

/// Lists told by hand: the last column moves first.
pub fn by_hand(suite: &mut Suite) -> Verdict {
    suite.seed(1);
    let rows: [(&[u8], &[&[u64]]); 10] = [
        (&[17], &[&[0], &[1]]),
        (&[18, 3], &[&[0], &[1], &[2]]),
        (&[19, 2], &[&[0], &[1], &[2], &[3]]),
        (&[20, 1, 0, 0, 0], &[&[0], &[1]]),
        (&[20, 4, 0, 0, 0], &[&[0], &[1], &[2], &[3], &[4]]),
        (&[17, 20, 2, 0, 0, 0], &[&[0, 0], &[0, 1], &[0, 2], &[1, 0], &[1, 1], &[1, 2]]),
        (&[17, 18, 3], &[&[0, 0], &[0, 1], &[0, 2], &[1, 0], &[1, 1], &[1, 2]]),
        (&[21, 1], &[&[0], &[1], &[2], &[3]]),
        (&[17, 21, 1], &[&[0, 0], &[0, 1], &[0, 2], &[0, 3], &[1, 0], &[1, 1], &[1, 2], &[1, 3]]),
        (
            &[19, 1, 17, 18, 2],
            &[&[0, 0, 0], &[0, 0, 1], &[0, 1, 0], &[0, 1, 1], &[1, 0, 0], &[1, 0, 1], &[1, 1, 0], &[1, 1, 1]],
        ),
    ];
    for (sheet, lists) in rows {
        suite.gives(&call(sheet), plain(vec![lists.len() as u64], bytes_of(&lists.concat())))?;
    }
    Ok(())
}

/// The sheet, 17, 14.
pub fn order(suite: &mut Suite) -> Verdict {
    suite.seed(2);
    let base = Call { room: 48, ..call(&[17, 18, 3]) };
    let mut faults = sheets(0);
    for many in [vec![17; 13], vec![19, 13], vec![17; 256], [19, 24].repeat(10), top_column(4096), vec![21, 7]] {
        faults.push(fault(1, 17, "sheet", move |call| call.sheet.clone_from(&many)));
    }
    faults.extend(rooms(2, 48));
    alone_and_in_pairs(suite, &base, &faults)?;
    // Too many lists, and then a column at fault; too many entries for a sheet.
    let start = [17; 20];
    let ends: [(&[u8], u32); 12] = [
        (&[20], 1),
        (&[21], 1),
        (&[22], 1),
        (&[20, 0, 0, 0], 1),
        (&[18], 1),
        (&[18, 1], 2),
        (&[19, 25], 2),
        (&[18, 65, 99], 2),
        (&[20, 0, 0, 0, 0], 2),
        (&[21, 13], 2),
        (&[21, 12], 17),
        (&[17], 17),
    ];
    for (end, number) in ends {
        suite.number(&call(&[&start[..], end].concat()), number)?;
    }
    suite.number(&call(&[17; 256]), 17)?;
    suite.number(&call(&[17; 257]), 2)
}

/// 4,096 lists are written and no more, whatever wraps at 16, 32 or 64 bits.
pub fn limits(suite: &mut Suite) -> Verdict {
    suite.seed(3);
    let written: [(Vec<u8>, u64); 17] = [
        (vec![17; 12], 4096),
        (vec![19, 12], 4096),
        (vec![19, 6, 18, 64], 4096),
        ([18, 64].repeat(2), 4096),
        ([18, 8].repeat(4), 4096),
        ([19, 1].repeat(12), 4096),
        (vec![18, 39, 18, 35, 18, 3], 4095),
        ([18, 3].repeat(7), 2187),
        (vec![17; 11], 2048),
        (top_column(4095), 4096),
        (top_column(1).repeat(12), 4096),
        ([top_column(584), vec![18, 7]].concat(), 4095),
        ([vec![17], top_column(2047)].concat(), 4096),
        (vec![21, 6], 4096),
        ([21, 1].repeat(6), 4096),
        (vec![21, 5, 18, 4], 4096),
        (vec![18, 63, 21, 3], 4032),
    ];
    for (sheet, lists) in written {
        let done = done(suite, &call(&sheet))?;
        if done.numbers != [lists] {
            return Err(suite.failure(&call(&sheet), &format!("{:?} lists\nmust be {lists}", done.numbers)));
        }
    }
    let many =
        [vec![19, 13], vec![19, 24], vec![18, 41, 18, 50, 17], [18, 3].repeat(8), vec![19, 12, 17], vec![17, 19, 12]];
    let more = [[18, 16].repeat(4), [18, 64].repeat(3), [18, 64].repeat(4), [18, 16].repeat(8), [18, 16].repeat(16)];
    let wide = [[19, 24].repeat(2), [19, 16].repeat(4), [19, 24].repeat(10), [18, 2].repeat(128), [19, 1].repeat(128)];
    let tops = [4096, 8191, 65_535, 0xFF_FFFF].map(top_column);
    let high = [[vec![17], top_column(2048)].concat(), top_column(15).repeat(8), top_column(1).repeat(85)];
    let points =
        [vec![21, 7], vec![21, 12], vec![21, 6, 17], vec![21, 8, 21, 8], [21, 12].repeat(9), [21, 1].repeat(42)];
    for sheet in many.iter().chain(&more).chain(&wide).chain(&tops).chain(&high).chain(&points) {
        suite.number(&call(sheet), 17)?;
    }
    many_yes_no(suite)
}

/// 2^13 lists and more.
fn many_yes_no(suite: &mut Suite) -> Verdict {
    let counts = [13, 14, 16, 17, 31, 32, 33, 44, 63, 64, 65, 76, 128, 255, 256];
    counts.into_iter().try_for_each(|columns| suite.number(&call(&vec![17; columns]), 17))
}

/// The room exact, longer, one short and none.
pub fn exact_rooms(suite: &mut Suite) -> Verdict {
    suite.seed(4);
    for (sheet, needed) in [(vec![17], 8), (vec![17, 18, 3, 19, 4], 1152), (vec![17; 12], ROOM), (vec![21, 6], 16_384)]
    {
        let rooms =
            [(needed, 0), (needed + 1, 0), (needed + 100, 0), (needed - 1, 14), (needed / 2, 14), (1, 14), (0, 14)];
        for (room, number) in rooms {
            suite.number(&Call { room, ..call(&sheet) }, number)?;
        }
    }
    Ok(())
}

/// What a call gave that must be done.
fn done(suite: &mut Suite, call: &Call) -> Result<Done, String> {
    suite.check(call)?.map_err(|number| suite.failure(call, &format!("refused {number}\nmust be done")))
}

/// The lists that the library writes for a sheet that it does not refuse.
fn written(suite: &mut Suite, rng: &mut Rng, sheet: &[u8], columns: usize) -> Result<Vec<Vec<u64>>, String> {
    let call = Call { room: ROOM + rng.pick([0, 1, 60]), ..call(sheet) };
    let done = done(suite, &call)?;
    let lists: Vec<Vec<u64>> = done.bytes.chunks(4 * columns).map(|list| words(list, 0, columns)).collect();
    let rising = lists.windows(2).all(|pair| pair[0] < pair[1]);
    if !rising || done.numbers != [lists.len() as u64] {
        return Err(suite.failure(&call, &format!("{lists:?}\nmust be rising, {:?} lists", done.numbers)));
    }
    Ok(lists)
}

/// Every list that is written passes making's check of values, so that 6 is left, for want of random elements; with one
/// value past its column it is refused 5.
fn taken(suite: &mut Suite, rng: &mut Rng, bytes: &[u8]) -> Verdict {
    let sheet = Sheet::read(bytes).map_err(|number| format!("refused {number}"))?;
    let columns = sheet.columns();
    let lists = written(suite, rng, bytes, columns.len())?;
    let product: u64 = columns.iter().map(|column| u64::from(column.values())).product();
    if lists.len() as u64 != product {
        return Err(suite.failure(&call(bytes), &format!("{} lists\nmust be {product}", lists.len())));
    }
    let make = Call { sheet: bytes.to_vec(), servers: 2, ..Call::of(Function::Make) };
    for list in &lists {
        let values = bytes_of(list);
        let at = rng.index(columns.len());
        let mut past = values.clone();
        put_word(&mut past, 4 * at, columns[at].values().into());
        suite.number(&Call { values, ..make.clone() }, 6)?;
        suite.number(&Call { values: past, ..make.clone() }, 5)?;
    }
    let values = bytes_of(&lists[rng.index(lists.len())]);
    let random = gen::elements(rng, sheet.share_elements() + 4);
    suite.number(&Call { values, random, room: 2 * sheet.share_length(), ..make }, 0)
}

/// Random small sheets; those of too many lists are refused.
pub fn random(suite: &mut Suite) -> Verdict {
    let mut rng = suite.seed(5);
    for _ in 0..60 {
        let sheet = gen::small_sheet(&mut rng);
        match suite.check(&call(&sheet))? {
            Ok(_) => taken(suite, &mut rng, &sheet)?,
            Err(_) => suite.number(&call(&sheet), 17)?,
        }
    }
    Ok(())
}

/// Of all lists of numbers below 6 making takes the values of those that are written and of no other.
pub fn no_other(suite: &mut Suite) -> Verdict {
    let mut rng = suite.seed(6);
    let sheets: [&[u8]; 6] =
        [&[17], &[18, 5, 17], &[19, 2, 18, 3], &[17, 17, 17], &[19, 1, 18, 4, 17], &[18, 2, 19, 2, 18, 3]];
    let tops: [&[u8]; 3] = [&[20, 4, 0, 0, 0], &[20, 2, 0, 0, 0, 17], &[20, 1, 0, 0, 0, 18, 3, 20, 4, 0, 0, 0]];
    let points: [&[u8]; 2] = [&[21, 1], &[17, 21, 1, 18, 2]];
    for sheet in sheets.into_iter().chain(tops).chain(points) {
        let columns = Sheet::read(sheet).map_or(0, |sheet| sheet.columns().len());
        let lists = written(suite, &mut rng, sheet, columns)?;
        for number in 0..6u64.pow(columns as u32) {
            let list: Vec<u64> = (0..columns as u32).map(|place| number / 6u64.pow(place) % 6).collect();
            let answer = if lists.contains(&list) { 6 } else { 5 };
            let values = bytes_of(&list);
            suite.number(&Call { sheet: sheet.to_vec(), servers: 2, values, ..Call::of(Function::Make) }, answer)?;
        }
    }
    Ok(())
}
