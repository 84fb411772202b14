//! The header's constants and sizes against document 01 and the lengths that the library writes.

use std::mem::{align_of, offset_of, size_of};

use second::gen;

use crate::calls::{Call, Function, MOST_BYTES, MOST_ELEMENTS};
use crate::counts::told;
use crate::fixture::Fixture;
use crate::layout::Slot;
use crate::suite::{Suite, Verdict};
use crate::tops::top_column;

// The functions of sizes.c.
extern "C" {
    fn sizes_values(columns: u32) -> usize;
    fn sizes_random(servers: u32, share_bytes: u32) -> usize;
    fn sizes_make(servers: u32, share_bytes: u32) -> usize;
    fn sizes_seeds(servers: u32) -> usize;
    fn sizes_make_seeded(servers: u32, share_bytes: u32) -> usize;
    fn sizes_totals(published: u32) -> usize;
    fn sizes_join(published: u32) -> usize;
    fn sizes_table(sheet_len: usize, published: u32, returns: u32) -> usize;
    fn sizes_elements(share_bytes: u32) -> usize;
    fn sizes_slot(number: u32) -> usize;
    fn sizes_shelf(messages: u32, width: u32) -> usize;
    fn sizes_every_return(columns: u32, lists: u32) -> usize;
    fn sizes_constant(number: u32) -> usize;
}

/// The refusals.
const REFUSALS: [usize; 20] = [0, 1, 2, 3, 4, 5, 6, 7, 8, 9, 10, 11, 12, 13, 14, 15, 16, 17, 18, 19];

/// After the refusals: p, S from and to, the most returns and entries, the column kinds, the lengths of round one and
/// round two messages, and the largest sizes; R and W at most, and their product; lists at most, and their bytes; slots,
/// the most numbers, and a slot's stages; a seed, its message, the random elements beside seeds, the most bytes of seeds,
/// and of what is made from them.
const CONSTANTS: [usize; 33] = [
    2_147_483_647,
    2,
    8,
    1024,
    256,
    17,
    18,
    19,
    20,
    21,
    22,
    14,
    426,
    7161,
    3102,
    1030,
    5390,
    64,
    4096,
    262_144,
    4096,
    196_608,
    8,
    6208,
    0,
    1,
    2,
    3,
    32,
    38,
    16,
    224,
    3368,
];

/// A slot: its size and alignment; where id, stage, r, s, d and e stand, and their sizes.
const SLOT: [usize; 14] = [40, 8, 0, 4, 8, 16, 24, 32, 4, 4, 8, 8, 8, 8];

pub fn constants(_: &mut Suite) -> Verdict {
    for (number, must) in REFUSALS.into_iter().chain(CONSTANTS).enumerate() {
        let is = unsafe { sizes_constant(number as u32) };
        if is != must {
            return Err(format!("constant {number} of pool.h is {is}\nmust be {must}"));
        }
    }
    // The longest circuit has the constant at its start, the longest table 1,024 returns and no column before its own.
    let circuit = 5 + most(|sheet| second::circuit(sheet, usize::MAX).map_or(0, |bytes| bytes.len() - 5));
    let table = unsafe { sizes_table(0, 0, 1024) } + most(table);
    let share = 30 + most(|sheet| second::sizes(sheet).map_or(0, |told| told.share_bytes - 30));
    let is = [most(<[u8]>::len), circuit, table, share, unsafe { sizes_elements(share as u32) }];
    if is != [426, 7161, MOST_BYTES, 3102, MOST_ELEMENTS] {
        return Err(format!(
            "the longest sheet, circuit, table, share and run of numbers have {is:?} bytes or numbers"
        ));
    }
    // Wires with the constant's, multiplications and tests: the limits of a circuit do not bite.
    let count = |of: fn(&second::Sizes) -> usize| most(|sheet| second::sizes(sheet).map_or(0, |told| of(&told)));
    let counts = [1 + count(|told| told.wires - 1), count(|told| told.multiplications), count(|told| told.tests)];
    if counts != [1275, 256, 384] {
        return Err(format!("the most wires, multiplications and tests of a sheet are {counts:?}"));
    }
    Ok(())
}

/// A slot in C is the slot that the tests lend.
pub fn slot(_: &mut Suite) -> Verdict {
    for (number, must) in SLOT.into_iter().enumerate() {
        let is = unsafe { sizes_slot(number as u32) };
        if is != must {
            return Err(format!("size or place {number} of a slot in pool.h is {is}\nmust be {must}"));
        }
    }
    let rust = [size_of::<Slot>(), align_of::<Slot>(), offset_of!(Slot, id), offset_of!(Slot, stage)];
    let numbers = [offset_of!(Slot, r), offset_of!(Slot, s), offset_of!(Slot, d), offset_of!(Slot, e)];
    if [rust, numbers].concat() != SLOT[..8] {
        return Err(format!("the tests' slot has {rust:?} and {numbers:?}"));
    }
    Ok(())
}

/// What a column adds to the length of a table's bytes.
fn table(sheet: &[u8]) -> usize {
    second::sizes(sheet).map_or(0, |told| sheet.len() + 4 * told.published)
}

/// The most that a length adds up to over all sheets: a best choice of columns for every number of entries. Tops of one
/// number of bits are alike.
fn most(length: impl Fn(&[u8]) -> usize) -> usize {
    let mut sheets = vec![vec![17]];
    sheets.extend((2..=64).map(|options| vec![18, options]));
    sheets.extend((1..=24).map(|bits| vec![19, bits]));
    sheets.extend((0..24).map(|bits| top_column(1 << bits)));
    sheets.extend((1..=12).map(|bits| vec![21, bits]));
    let entries = |sheet: &[u8]| second::sizes(sheet).map_or(0, |told| told.entries);
    let columns: Vec<(usize, usize)> = sheets.iter().map(|sheet| (entries(sheet), length(sheet))).collect();
    let mut most = vec![0; 257];
    for entries in 1..=256 {
        let ends = columns.iter().filter(|(width, _)| *width <= entries);
        most[entries] = ends.map(|(width, length)| most[entries - width] + length).max().unwrap_or(0);
    }
    most.into_iter().max().unwrap_or(0)
}

/// The sizes that the header's macros give from what pool_sizes tells are the lengths that are read and written.
pub fn lengths(suite: &mut Suite) -> Verdict {
    let mut rng = suite.seed(8);
    for _ in 0..40 {
        let entries = rng.pick([1, 5, 40, 256]);
        let sheet = gen::sheet(&mut rng, entries);
        let [columns, _, published, _, _, _, _, share, greatest] = told(suite, &sheet)?;
        let returns = rng.between(2, u64::from(greatest).min(9)) as u32;
        let servers = rng.between(2, 8) as u32;
        let fixture = Fixture::new(suite, servers, 0, &sheet, returns)?;
        let (totals, table) = unsafe { (sizes_totals(published), sizes_table(sheet.len(), published, returns)) };
        let is = (share as usize, totals, table, unsafe { sizes_elements(share) });
        let idle = &fixture.idle;
        if is != (fixture.share.len(), fixture.closing, idle.bytes.len(), idle.elements.len()) {
            return Err(format!("the sizes of a share, totals and a table are {is:?} for the sheet {sheet:?}"));
        }
        opens(suite, &Call { room: table, elements: is.3, ..Call::open_table(servers, 0, &sheet, returns) })?;
        let (values, random) = unsafe { (vec![0; sizes_values(columns)], vec![0; sizes_random(servers, share)]) };
        let (room, joined) = unsafe { (sizes_make(servers, share), sizes_join(published)) };
        let make = Call { sheet: sheet.clone(), servers, values, random, room, ..Call::of(Function::Make) };
        suite.number(&make, 0)?;
        suite.number(&Call { room: room - 1, ..make.clone() }, 14)?;
        seeded(suite, &make, share)?;
        let message = (0..servers as u8).flat_map(|own| [&[36, own][..], &vec![0; totals - 2]].concat()).collect();
        let join = Call { sheet, servers, returns, message, room: joined, ..Call::of(Function::Join) };
        suite.number(&join, 0)?;
        suite.number(&Call { room: joined - 1, ..join }, 14)?;
    }
    Ok(())
}

/// Making from seeds is done with the sizes that the header's macros give, and refused with other ones.
fn seeded(suite: &mut Suite, make: &Call, share: u32) -> Verdict {
    let (seeds, room) = unsafe { (sizes_seeds(make.servers), sizes_make_seeded(make.servers, share)) };
    let (random, seeds) = (vec![0; 16], vec![0; seeds]);
    let call = Call { function: Function::MakeSeeded, random, seeds, room, ..make.clone() };
    suite.number(&call, 0)?;
    suite.number(&Call { seeds: vec![0; call.seeds.len() - 1], ..call.clone() }, 6)?;
    suite.number(&Call { room: room - 1, ..call }, 14)
}

/// Opening is done with these rooms, and refused with less of either.
fn opens(suite: &mut Suite, open: &Call) -> Verdict {
    suite.number(open, 0)?;
    suite.number(&Call { room: open.room - 1, ..open.clone() }, 14)?;
    suite.number(&Call { elements: open.elements - 1, ..open.clone() }, 14)
}

/// The run that is stored and the room for it have the size that the header's macro gives.
pub fn runs(suite: &mut Suite) -> Verdict {
    suite.seed(9);
    for (messages, width) in [(1, 1), (3, 5), (1, 4096), (64, 1), (64, 4096)] {
        let room = unsafe { sizes_shelf(messages, width) };
        let shelve = Call { messages, width, message: vec![3; room], room, ..Call::of(Function::Shelve) };
        suite.number(&shelve, 0)?;
        suite.number(&Call { room: room - 1, ..shelve.clone() }, 14)?;
        suite.number(&Call { message: vec![3; room + 1], ..shelve }, 19)?;
    }
    Ok(())
}

/// The lists of a sheet and the room for them have the size that the header's macro gives.
pub fn lists(suite: &mut Suite) -> Verdict {
    suite.seed(10);
    for (sheet, lists) in [(vec![17], 2), (vec![17, 18, 3, 19, 4], 96), (vec![21, 6], 4096), (vec![17; 12], 4096)] {
        let columns = told(suite, &sheet)?[0];
        let room = unsafe { sizes_every_return(columns, lists) };
        let call = Call { sheet, room, ..Call::of(Function::EveryReturn) };
        suite.number(&call, 0)?;
        suite.number(&Call { room: room - 1, ..call }, 14)?;
    }
    Ok(())
}
