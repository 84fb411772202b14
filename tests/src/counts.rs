//! What a sheet comes to: told by hand, and as its circuit, its shares, its openings and its totals show it.

use second::gen;

use crate::calls::{plain, Call, Function};
use crate::faults::{alone_and_in_pairs, sheets};
use crate::layout::{put_short, Parts};
use crate::suite::{Suite, Verdict};
use crate::tops::{largest_sheet, longest_sheet, top_column};

fn sizes(sheet: &[u8]) -> Call {
    Call { sheet: sheet.to_vec(), ..Call::of(Function::Sizes) }
}

/// The nine results of a sheet that is read, in the order of the header.
pub fn told(suite: &mut Suite, sheet: &[u8]) -> Result<[u32; 9], String> {
    let call = sizes(sheet);
    let done = suite.check(&call)?.map_err(|number| suite.failure(&call, &format!("refused {number}")))?;
    let numbers: Vec<u32> = done.numbers.into_iter().map(|number| number as u32).collect();
    numbers.try_into().map_err(|numbers| format!("not nine results: {numbers:?}"))
}

/// Sheets at fault. What is lent and the nine results keep what they held.
pub fn refusals(suite: &mut Suite) -> Verdict {
    let mut rng = suite.seed(12);
    alone_and_in_pairs(suite, &sizes(&[17, 18, 3, 19, 4]), &sheets(0))?;
    (0..500).try_for_each(|_| suite.agrees(&sizes(&gen::damaged_sheet(&mut rng))))
}

/// Columns, L, published, wires, M, K, circuit bytes, share bytes and greatest N of some sheets, the largest among them.
pub fn by_hand(suite: &mut Suite) -> Verdict {
    suite.seed(13);
    let rows: [(Vec<u8>, [u64; 9]); 24] = [
        (vec![17], [1, 1, 1, 4, 1, 1, 21, 42, 1024]),
        (vec![18, 2], [1, 2, 2, 9, 2, 3, 50, 54, 1024]),
        (vec![18, 3], [1, 3, 3, 13, 3, 4, 71, 66, 1024]),
        (vec![18, 64], [1, 64, 64, 257, 64, 65, 1352, 798, 1024]),
        (vec![19, 1], [1, 2, 1, 8, 1, 2, 46, 46, 1024]),
        (vec![19, 24], [1, 25, 1, 123, 24, 25, 690, 322, 128]),
        (vec![17, 18, 3, 19, 4], [3, 9, 5, 38, 8, 10, 212, 130, 1024]),
        (vec![19, 22, 17, 19, 23], [3, 48, 3, 233, 46, 48, 1307, 590, 256]),
        (vec![17; 256], [256, 256, 256, 769, 256, 256, 4101, 3102, 1024]),
        ([18, 2].repeat(128), [128, 256, 256, 1025, 256, 384, 5765, 3102, 1024]),
        ([18, 64].repeat(4), [4, 256, 256, 1025, 256, 260, 5393, 3102, 1024]),
        ([[19, 24].repeat(10), vec![19, 5]].concat(), [11, 256, 11, 1248, 245, 256, 7008, 3014, 128]),
        (top_column(1), [1, 3, 1, 15, 2, 4, 87, 58, 1024]),
        (top_column(200), [1, 17, 1, 85, 16, 18, 479, 226, 1024]),
        (top_column(0xFF_FFFF), [1, 49, 1, 245, 48, 50, 1375, 610, 128]),
        (vec![17, 20, 2, 0, 0, 0, 19, 4], [3, 11, 3, 50, 9, 12, 284, 146, 1024]),
        (vec![21, 1], [1, 6, 4, 23, 4, 6, 133, 86, 1024]),
        (vec![21, 2], [1, 8, 4, 33, 6, 8, 189, 110, 1024]),
        (vec![21, 12], [1, 28, 4, 133, 26, 28, 749, 350, 128]),
        (vec![17, 21, 11, 18, 3], [3, 30, 8, 138, 28, 31, 775, 374, 512]),
        ([21, 1].repeat(42), [42, 252, 168, 925, 168, 252, 5381, 2382, 1024]),
        ([21, 12].repeat(9), [9, 252, 36, 1189, 234, 252, 6701, 2910, 128]),
        (largest_sheet(), [6, 256, 6, 1275, 250, 262, 7161, 3054, 255]),
        (longest_sheet(), [86, 256, 86, 1194, 171, 341, 6991, 2422, 1024]),
    ];
    for (sheet, numbers) in rows {
        suite.agrees(&sizes(&sheet))?;
        suite.gives(&sizes(&sheet), plain(numbers.to_vec(), Vec::new()))?;
    }
    Ok(())
}

/// The circuit that is written has the bytes told, and, read again, the wires, multiplications and tests told.
fn circuit(suite: &mut Suite, sheet: &[u8], told: [u32; 9]) -> Verdict {
    let [_, entries, _, wires, multiplications, tests, length, _, _] = told;
    let call = Call { sheet: sheet.to_vec(), room: length as usize, ..Call::of(Function::Circuit) };
    let message = suite.check(&call)?.map_or(Vec::new(), |done| done.bytes);
    if message.len() != length as usize {
        return Err(suite.failure(&call, &format!("{} bytes\nmust be {length}", message.len())));
    }
    suite.number(&Call { room: length as usize - 1, ..call }, 14)?;
    let counts = [wires, multiplications, tests].map(u64::from).to_vec();
    let read = Call { entries, message, ..Call::of(Function::ReadCircuit) };
    suite.gives(&read, plain(counts, Vec::new()))?;
    let fewer = if entries == 1 { 2 } else { 3 };
    suite.number(&Call { entries: entries - 1, ..read }, fewer)
}

/// A return has a value for each column told, and its S share messages the bytes told.
fn shares(suite: &mut Suite, sheet: &[u8], servers: u32, told: [u32; 9]) -> Verdict {
    let (columns, length, s) = (told[0] as usize, told[7] as usize, servers as usize);
    let make = Call {
        sheet: sheet.to_vec(),
        servers,
        values: vec![0; 4 * columns],
        random: vec![0; (s - 1) * (length - 6) + 16],
        room: s * length,
        ..Call::of(Function::Make)
    };
    let made = suite.check(&make)?.map_or(0, |done| done.bytes.len());
    if made != s * length {
        return Err(suite.failure(&make, &format!("{made} bytes\nmust be {s} times {length}")));
    }
    suite.number(&Call { room: s * length - 1, ..make.clone() }, 14)?;
    suite.number(&Call { values: vec![0; 4 * columns + 4], ..make }, 5)
}

/// The greatest N told opens; one more is refused, 4 or at 1,025 2. The totals are as many as told: of a table that has
/// one entered, by hand.
fn openings(suite: &mut Suite, sheet: &[u8], servers: u32, told: [u32; 9]) -> Verdict {
    let (published, greatest) = (told[2], told[8]);
    let open = Call::open_table(servers, 1, sheet, greatest);
    suite.number(&open, 0)?;
    let more = if greatest < 1024 { 4 } else { 2 };
    suite.number(&Call { returns: greatest + 1, ..open.clone() }, more)?;
    suite.number(&Call { returns: 1025, ..open.clone() }, 2)?;
    suite.number(&Call { returns: 1, ..open.clone() }, 0)?;
    let table = suite.check(&open)?.map_or(Parts::default(), |done| done.table);
    let room = 6 + 4 * published as usize;
    let table = table.with(|table| {
        put_short(&mut table.bytes, 6, 1);
        put_short(&mut table.bytes, 8, 1);
    });
    let close = Call { table, room, ..Call::of(Function::Close) };
    suite.number(&close, 0)?;
    suite.number(&Call { room: room - 1, ..close }, 14)
}

/// What is told of a sheet is what the other calls show.
fn shown(suite: &mut Suite, sheet: &[u8], servers: u32) -> Verdict {
    let told = told(suite, sheet)?;
    circuit(suite, sheet, told)?;
    shares(suite, sheet, servers, told)?;
    openings(suite, sheet, servers, told)
}

/// Every choice, number and point by itself, and the greatest N of each number of bits; some tops.
pub fn columns(suite: &mut Suite) -> Verdict {
    suite.seed(14);
    shown(suite, &[17], 2)?;
    for options in 2..=64 {
        shown(suite, &[18, options], 2)?;
    }
    for bits in 1..=24 {
        shown(suite, &[19, bits], 3)?;
        let greatest = told(suite, &[19, bits])?[8];
        let most = 1024 >> bits.saturating_sub(21);
        if greatest != most {
            return Err(format!("{bits} bits: the greatest N is {greatest}\nmust be {most}"));
        }
    }
    for (bits, most) in (1..=12).map(|bits| (bits, [1024, 512, 128][usize::from(bits.max(10)) - 10])) {
        shown(suite, &[21, bits], 3)?;
        let greatest = told(suite, &[21, bits])?[8];
        if greatest != most {
            return Err(format!("a point of {bits} bits: the greatest N is {greatest}\nmust be {most}"));
        }
    }
    tops(suite)
}

/// Tops at both ends of every number of bits. The greatest N is p - 1 over the top, at most 1,024.
fn tops(suite: &mut Suite) -> Verdict {
    let tops = (0..24).flat_map(|bits| [1 << bits, (2 << bits) - 1]);
    for top in tops.chain([200, 2_097_152, 2_099_202, 2_099_203, 16_777_214]) {
        let sheet = top_column(top);
        shown(suite, &sheet, 2)?;
        let (greatest, most) = (told(suite, &sheet)?[8], (2_147_483_646 / top).min(1024));
        if greatest != most {
            return Err(format!("a top of {top}: the greatest N is {greatest}\nmust be {most}"));
        }
    }
    Ok(())
}

/// Random sheets: small and full, of one kind and mixed.
pub fn random(suite: &mut Suite) -> Verdict {
    let mut rng = suite.seed(15);
    for _ in 0..120 {
        let most = rng.pick([3, 12, 60, 256]);
        let sheet = gen::sheet(&mut rng, most);
        shown(suite, &sheet, rng.between(2, 8) as u32)?;
    }
    Ok(())
}
