//! Columns with a top of their own: a circuit told by hand, returns with a value past the top, and tables of the longest
//! sheet.

use second::gen::{self, Return, Rng};
use second::Sheet;

use crate::calls::{plain, Call, Function};
use crate::fixture::Fixture;
use crate::layout::put_short;
use crate::pools::Pool;
use crate::suite::{Suite, Verdict};
use crate::tables::{all_calls, refused, taken};

/// A column with a top: the kind byte and the 4-byte top.
pub fn top_column(top: u32) -> Vec<u8> {
    [&[20], &top.to_le_bytes()[..]].concat()
}

/// The longest sheet, 426 bytes: 85 columns of 3 entries, and a yes/no.
pub fn longest_sheet() -> Vec<u8> {
    [top_column(1).repeat(85), vec![17]].concat()
}

/// A sheet of the longest circuit, 7,161 bytes and 1,275 wires: five columns of 49 entries, and one of 11.
pub fn largest_sheet() -> Vec<u8> {
    [top_column(0x80_0000).repeat(5), top_column(16)].concat()
}

/// A bit check: entry e as wire w; add it and wire 0; multiply both; test.
fn bit_check(e: u8, w: u8) -> Vec<u8> {
    [[2, e, 0].as_slice(), &[3, w, 0, 0, 0], &[5, w, 0, w + 1, 0], &[6, w + 2, 0]].concat()
}

/// The circuit of a top of 6: v, three bits of v, three of 6 - v; both sums after all checks; p - 6 is a constant.
pub fn circuit(suite: &mut Suite) -> Verdict {
    suite.seed(1);
    let mut steps = vec![1, 0xFE, 0xFF, 0xFF, 0x7F, 2, 0, 0];
    for k in 0..6 {
        steps.extend(bit_check(1 + k, 2 + 3 * k));
    }
    let first: [&[u8]; 8] = [
        &[4, 1, 0, 0xFE, 0xFF, 0xFF, 0x7F],
        &[4, 2, 0, 1, 0, 0, 0],
        &[3, 20, 0, 21, 0],
        &[4, 5, 0, 2, 0, 0, 0],
        &[3, 22, 0, 23, 0],
        &[4, 8, 0, 4, 0, 0, 0],
        &[3, 24, 0, 25, 0],
        &[6, 26, 0],
    ];
    let second: [&[u8]; 9] = [
        &[1, 0xF9, 0xFF, 0xFF, 0x7F],
        &[3, 27, 0, 1, 0],
        &[4, 11, 0, 1, 0, 0, 0],
        &[3, 28, 0, 29, 0],
        &[4, 14, 0, 2, 0, 0, 0],
        &[3, 30, 0, 31, 0],
        &[4, 17, 0, 4, 0, 0, 0],
        &[3, 32, 0, 33, 0],
        &[6, 34, 0],
    ];
    steps.extend(first.concat());
    steps.extend(second.concat());
    let call = Call { sheet: top_column(6), room: 200, ..Call::of(Function::Circuit) };
    suite.agrees(&call)?;
    suite.gives(&call, plain(Vec::new(), steps.clone()))?;
    let read = Call { entries: 7, message: steps, ..Call::of(Function::ReadCircuit) };
    suite.gives(&read, plain(vec![35, 6, 8], Vec::new()))
}

/// The entries that say that a value is v and that so much is left to the top, in b bits each.
fn entries(v: u64, left: u64, bits: u32) -> Vec<u64> {
    let bits_of = |number: u64| (0..bits).map(move |j| number >> j & 1);
    [v].into_iter().chain(bits_of(v)).chain(bits_of(left)).collect()
}

/// A return of a yes/no and a column with a top: made by a workshop that says what it likes, and judged. It is accepted
/// exactly when v and what is left add up to the top; then it is entered and the total is v. One of zeros is entered
/// before, so that the pool closes.
fn judged(suite: &mut Suite, rng: &mut Rng, servers: u32, top: u32, v: u64, left: u64) -> Verdict {
    let bytes = [vec![17], top_column(top)].concat();
    let sheet = Sheet::read(&bytes).map_err(|number| format!("refused {number}"))?;
    let list = [vec![1], entries(v, left, top.ilog2() + 1)].concat();
    let given = Return::of_entries(rng, &sheet, servers, 5, &list);
    let mut pool = Pool::open(suite, servers, &bytes, 3)?;
    let zeros = pool.make_zeros(suite, rng, 4)?;
    pool.admit(suite, &zeros, 1_000_003, 19)?;
    // s is not 0: the tests before the last are 0, and s = 0 would leave the last out.
    let verdicts = pool.admit(suite, &given.shares, given.r, given.s.max(1))?;
    let good = v + left == u64::from(top);
    if verdicts != vec![u64::from(good); servers as usize] {
        return Err(format!("a top of {top}, {v} with {left} left: the verdicts are {verdicts:?}"));
    }
    let totals = if good { [1, v as u32] } else { [0, 0] };
    let join = pool.close(suite)?;
    suite.gives(&join, plain(vec![1 + u64::from(good)], totals.map(u32::to_le_bytes).concat()))
}

/// Values past the top that have as many bits, with bits of v that are right and any others: rejected. Making refuses
/// them.
pub fn past(suite: &mut Suite) -> Verdict {
    let mut rng = suite.seed(2);
    for top in [2, 4, 5, 6] {
        let count = 2u64 << u32::ilog2(top);
        for (v, left) in (0..count).flat_map(|v| (0..count).map(move |left| (v, left))) {
            judged(suite, &mut rng, 2, top, v, left)?;
        }
    }
    for top in [200, 0x80_0000, 0xFF_FFFE] {
        let (most, t) = ((2u64 << u32::ilog2(top)) - 1, u64::from(top));
        let any = rng.between(0, most);
        for left in [0, 1, 2, most, most - 1, t, any] {
            judged(suite, &mut rng, 3, top, t + 1, left)?;
            judged(suite, &mut rng, 3, top, most, left)?;
        }
        judged(suite, &mut rng, 8, top, t, 0)?;
        judged(suite, &mut rng, 8, top, 0, t)?;
        let make = Call { sheet: top_column(top), servers: 2, ..Call::of(Function::Make) };
        for (value, number) in [(t, 6), (t + 1, 5), (most, 5)] {
            let values = (value as u32).to_le_bytes().to_vec();
            suite.number(&Call { values, ..make.clone() }, number)?;
        }
    }
    Ok(())
}

/// Bits that are none, with both sums right and gate outputs that are claimed: sigma tells, but for a few r.
pub fn no_bits(suite: &mut Suite) -> Verdict {
    let mut rng = suite.seed(3);
    let bytes = top_column(200);
    let sheet = Sheet::read(&bytes).map_err(|number| format!("refused {number}"))?;
    for origin in [gen::Origin::Forged, gen::Origin::FalseTriple, gen::Origin::Lucky, gen::Origin::LuckyTriple] {
        for id in 0..6 {
            let given = Return::random(&mut rng, &sheet, 2, id, origin);
            let whole = gen::added_up(&sheet, &given.shares).unwrap_or_default();
            let mut pool = Pool::open(suite, 2, &bytes, 3)?;
            let verdicts = pool.judge(suite, &given.shares, given.r, given.s)?;
            let lets_in = gen::lets_in(&sheet, &whole, given.r, given.s).unwrap_or_default();
            if verdicts != [u64::from(lets_in); 2] {
                return Err(format!("{origin:?}: the verdicts are {verdicts:?}, r = {}, s = {}", given.r, given.s));
            }
        }
    }
    Ok(())
}

/// A table of the longest sheet, whose length needs both of its bytes: other lengths, the first and the last bytes of the
/// sheet at a few values, and the table cut short. A length that cuts a column is refused.
pub fn tables(suite: &mut Suite) -> Verdict {
    let fixture = Fixture::new(suite, 2, 1, &longest_sheet(), 2)?;
    let calls = fixture.calls();
    taken(suite, &fixture, |_| ())?;
    for table in fixture.stages() {
        for length in (0..1200).chain([65_535 - 85, 65_535]) {
            let damaged = table.with(|table| put_short(&mut table.bytes, 12, length));
            if length < 426 && length % 5 != 0 {
                refused(suite, &calls, &damaged)?;
            }
            all_calls(suite, &calls, &damaged)?;
        }
        for (at, value) in [14, 15, 18, 19, 269, 270, 434, 439].into_iter().flat_map(|at| [0, 1, 255].map(|v| (at, v)))
        {
            all_calls(suite, &calls, &table.with(|table| table.bytes[at] = value))?;
        }
        for length in [13, 14, 269, 270, 439, 440, table.bytes.len() - 1] {
            refused(suite, &calls, &table.with(|table| table.bytes.truncate(length)))?;
        }
    }
    Ok(())
}
