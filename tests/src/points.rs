//! Columns of points: a circuit told by hand, limits, returns with false products, and tables.

use second::gen::{self, Return, Rng};
use second::Sheet;

use crate::calls::{plain, Call, Function};
use crate::fixture::Fixture;
use crate::limits::sheet;
use crate::pools::Pool;
use crate::suite::{Suite, Verdict};
use crate::tables::all_calls;

const P: u64 = 2_147_483_647;

/// A bit check: entry e as wire w; add it and wire 0; multiply both; test.
fn bit_check(e: u8, w: u8) -> Vec<u8> {
    [[2, e, 0].as_slice(), &[3, w, 0, 0, 0], &[5, w, 0, w + 1, 0], &[6, w + 2, 0]].concat()
}

/// A number check of two bits: value times p - 1, bits at wires w and w + 3 with their weights; the first sum is wire s.
fn two_bits(value: u8, w: u8, s: u8) -> Vec<u8> {
    let steps: [&[u8]; 6] = [
        &[4, value, 0, 0xFE, 0xFF, 0xFF, 0x7F],
        &[4, w, 0, 1, 0, 0, 0],
        &[3, s, 0, s + 1, 0],
        &[4, w + 3, 0, 2, 0, 0, 0],
        &[3, s + 2, 0, s + 3, 0],
        &[6, s + 4, 0],
    ];
    steps.concat()
}

/// A product check: multiply two wires as wire w, the claimed one times p - 1, add (product, scaled), test.
fn product(left: u8, right: u8, claimed: u8, w: u8) -> Vec<u8> {
    let steps: [&[u8]; 4] =
        [&[5, left, 0, right, 0], &[4, claimed, 0, 0xFE, 0xFF, 0xFF, 0x7F], &[3, w, 0, w + 1, 0], &[6, w + 2, 0]];
    steps.concat()
}

/// The circuit of a yes/no and a point of 2 bits: four entries, the checks of x and those of y, the two products.
pub fn circuit(suite: &mut Suite) -> Verdict {
    suite.seed(1);
    let start = vec![1, 0xFE, 0xFF, 0xFF, 0x7F];
    let entries = vec![2, 1, 0, 2, 2, 0, 2, 3, 0, 2, 4, 0];
    let x = [bit_check(5, 8), bit_check(6, 11), two_bits(4, 8, 14)].concat();
    let y = [bit_check(7, 19), bit_check(8, 22), two_bits(6, 19, 25)].concat();
    let products = [product(4, 4, 5, 30), product(4, 6, 7, 33)].concat();
    let steps = [start, bit_check(0, 1), entries, x, y, products].concat();
    let call = Call { sheet: vec![17, 21, 2], room: 300, ..Call::of(Function::Circuit) };
    suite.agrees(&call)?;
    suite.gives(&call, plain(Vec::new(), steps.clone()))?;
    let read = Call { entries: 9, message: steps, ..Call::of(Function::ReadCircuit) };
    suite.gives(&read, plain(vec![36, 7, 9], Vec::new()))
}

/// Bits at both sides, 256 entries and not more, and N at both sides of refusal 4.
pub fn limits(suite: &mut Suite) -> Verdict {
    suite.seed(2);
    for bits in 0..=255 {
        let number = if (1..=12).contains(&bits) { 0 } else { 2 };
        sheet(suite, &[21, bits], number)?;
        sheet(suite, &[17, 21, bits, 17], number)?;
    }
    sheet(suite, &[21], 1)?;
    sheet(suite, &[17, 21], 1)?;
    sheet(suite, &[vec![17; 300], vec![21]].concat(), 1)?;
    sheet(suite, &[vec![17; 300], vec![21, 13]].concat(), 2)?;
    // 9 times 28 entries and 4 or 5 more; 42 times 6 and 4 or 5 more; 10 times 24 and one of 16 or 18.
    for (count, number) in [(4, 0), (5, 2)] {
        sheet(suite, &[[21, 12].repeat(9), vec![17; count]].concat(), number)?;
        sheet(suite, &[vec![17; count], [21, 1].repeat(42)].concat(), number)?;
    }
    for (bits, number) in [(6, 0), (7, 2)] {
        sheet(suite, &[[21, 10].repeat(10), vec![21, bits]].concat(), number)?;
    }
    sheet(suite, &[21, 1].repeat(43), 2)?;
    sheet(suite, &[21, 12].repeat(2341), 2)?;
    sheet(suite, &[21, 1].repeat(10_923), 2)?;
    let open = Call::open_table;
    for (bits, most) in [(12, 128), (11, 512)] {
        for around in [vec![21, bits], vec![18, 64, 21, bits, 17], vec![21, 1, 21, bits], vec![21, bits, 21, 1]] {
            suite.number(&open(2, 1, &around, most), 0)?;
            suite.number(&open(2, 1, &around, most + 1), 4)?;
            suite.number(&open(2, 1, &around, 1024), 4)?;
            suite.number(&open(2, 1, &around, 1025), 2)?;
        }
    }
    for bits in 1..=10 {
        suite.number(&open(2, 1, &[21, bits], 1024), 0)?;
        suite.number(&open(2, 1, &[21, bits], 1025), 2)?;
    }
    Ok(())
}

/// The entries of a point.
fn entries(x: u64, y: u64, bits: u32) -> Vec<u64> {
    let bits_of = |number: u64| (0..bits).map(move |j| number >> j & 1);
    [x, x * x, y, x * y].into_iter().chain(bits_of(x)).chain(bits_of(y)).collect()
}

/// The value x + 2^b × y gives shares that add up to the entries of (x, y).
pub fn values(suite: &mut Suite) -> Verdict {
    let mut rng = suite.seed(3);
    for (bits, x, y) in (0..16).map(|value| (2, value % 4, value / 4)).chain([
        (1, 1, 0),
        (1, 0, 1),
        (3, 5, 3),
        (12, 4095, 0),
        (12, 0, 4095),
        (12, 4095, 4095),
        (12, 4094, 1),
    ]) {
        let bytes = [21, bits as u8, 17];
        let pool = Pool::open(suite, 3, &bytes, 2)?;
        let value = (x + (y << bits)) as u32;
        let shares = pool.make(suite, &mut rng, 7, &[value.to_le_bytes(), [1, 0, 0, 0]].concat())?;
        let whole = gen::added_up(&pool.sheet, &shares).unwrap_or_default();
        let list = [entries(x, y, bits), vec![1]].concat();
        if whole.get(..list.len()) != Some(&list[..]) {
            return Err(format!("({x}, {y}) of {bits} bits has the entries {whole:?}\nmust be {list:?}"));
        }
    }
    Ok(())
}

/// A return of these entries of a point, made by a workshop that says what it likes, and judged: accepted exactly when
/// `good`. Then it is entered and the totals are its first four entries.
fn judged(suite: &mut Suite, rng: &mut Rng, bits: u8, list: &[u64], good: bool) -> Verdict {
    let bytes = [21, bits];
    let sheet = Sheet::read(&bytes).map_err(|number| format!("refused {number}"))?;
    let given = Return::of_entries(rng, &sheet, 2, 5, list);
    let mut pool = Pool::open(suite, 2, &bytes, 3)?;
    let zeros = pool.make_zeros(suite, rng, 4)?;
    pool.admit(suite, &zeros, 1_000_003, 19)?;
    // A fixed s that lets no test cancel another.
    let verdicts = pool.admit(suite, &given.shares, given.r, 987_654_321)?;
    if verdicts != vec![u64::from(good); 2] {
        return Err(format!("a point of {bits} bits, {list:?}: the verdicts are {verdicts:?}"));
    }
    let totals: Vec<u8> = list[..4].iter().flat_map(|&entry| (entry as u32 * u32::from(good)).to_le_bytes()).collect();
    let join = pool.close(suite)?;
    suite.gives(&join, plain(vec![1 + u64::from(good)], totals))
}

/// Every list of zeros and ones for a point of one bit, and lists of other small numbers: accepted where it is a point.
pub fn claims(suite: &mut Suite) -> Verdict {
    let mut rng = suite.seed(4);
    let points: Vec<Vec<u64>> = (0..4).map(|value| entries(value % 2, value / 2, 1)).collect();
    for number in 0..64u64 {
        let list: Vec<u64> = (0..6).map(|k| number >> k & 1).collect();
        judged(suite, &mut rng, 1, &list, points.contains(&list))?;
    }
    for _ in 0..120 {
        let list: Vec<u64> = (0..6).map(|_| rng.pick([0, 1, 1, 2, P - 1])).collect();
        judged(suite, &mut rng, 1, &list, points.contains(&list))?;
    }
    Ok(())
}

/// Points with right bits and false products: rejected.
pub fn false_products(suite: &mut Suite) -> Verdict {
    let mut rng = suite.seed(5);
    for (bits, x, y) in [(3, 5, 3), (3, 7, 7), (12, 4095, 17), (12, 1, 4095)] {
        let right = entries(x, y, u32::from(bits));
        judged(suite, &mut rng, bits, &right, true)?;
        let any = rng.below(P);
        for wrong in [0, 1, x * x + 1, y * y, x * y, P - x * x, x * x, any] {
            let list = [&[x, wrong], &right[2..]].concat();
            judged(suite, &mut rng, bits, &list, wrong == x * x)?;
            let list = [&right[..3], &[wrong], &right[4..]].concat();
            judged(suite, &mut rng, bits, &list, wrong == x * y)?;
        }
        // Bits of another x or y, and x and y in each other's places.
        for other in [0, x - 1, x + 1] {
            let list = [&right[..4], &entries(other, y, u32::from(bits))[4..]].concat();
            judged(suite, &mut rng, bits, &list, false)?;
        }
        let list = [&entries(y, x, u32::from(bits))[..4], &right[4..]].concat();
        judged(suite, &mut rng, bits, &list, x == y)?;
    }
    Ok(())
}

/// False entries with outputs that are claimed, so that every test is 0: sigma tells, but for a few r.
pub fn forged(suite: &mut Suite) -> Verdict {
    let mut rng = suite.seed(6);
    let origins = [gen::Origin::Forged, gen::Origin::FalseTriple, gen::Origin::Lucky, gen::Origin::LuckyTriple];
    for (bytes, origin) in [[21, 1], [21, 4]].into_iter().flat_map(|bytes| origins.map(|origin| (bytes, origin))) {
        let sheet = Sheet::read(&bytes).map_err(|number| format!("refused {number}"))?;
        let mut accepted = 0;
        for id in 0..12 {
            let given = Return::random(&mut rng, &sheet, 2, id, origin);
            let whole = gen::added_up(&sheet, &given.shares).unwrap_or_default();
            let mut pool = Pool::open(suite, 2, &bytes, 3)?;
            let verdicts = pool.judge(suite, &given.shares, given.r, given.s)?;
            let lets_in = gen::lets_in(&sheet, &whole, given.r, given.s).unwrap_or_default();
            if verdicts != [u64::from(lets_in); 2] {
                return Err(format!("{origin:?}: the verdicts are {verdicts:?}, r = {}, s = {}", given.r, given.s));
            }
            accepted += u32::from(lets_in);
        }
        let lucky = matches!(origin, gen::Origin::Lucky | gen::Origin::LuckyTriple);
        if lucky != (accepted > 6) {
            return Err(format!("{origin:?}: {accepted} of 12 returns are let in"));
        }
    }
    Ok(())
}

/// Tables of a yes/no and a point, in every stage: kind and bits at every value.
pub fn tables(suite: &mut Suite) -> Verdict {
    let fixture = Fixture::new(suite, 2, 1, &[17, 21, 2], 2)?;
    let calls = fixture.calls();
    for table in fixture.stages() {
        for (at, value) in (14..17).flat_map(|at| (0..=255).map(move |value| (at, value))) {
            all_calls(suite, &calls, &table.with(|table| table.bytes[at] = value))?;
        }
    }
    Ok(())
}
