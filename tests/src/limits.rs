//! Limits at both sides, each number told here by hand.

use second::gen;
use second::Sheet;

use crate::calls::{Call, Function};
use crate::fixture::Fixture;
use crate::layout::put_word;
use crate::pools::Pool;
use crate::reference::ONE_BYTES;
use crate::suite::{Suite, Verdict};
use crate::tops::{longest_sheet, top_column};

const P: u64 = 2_147_483_647;

/// Tells what a sheet comes to, writes its circuit, reads the circuit, opens with it.
pub fn sheet(suite: &mut Suite, sheet: &[u8], number: u32) -> Verdict {
    let sheet = sheet.to_vec();
    suite.number(&Call { sheet: sheet.clone(), ..Call::of(Function::Sizes) }, number)?;
    let call = Call { sheet: sheet.clone(), room: 7_161, ..Call::of(Function::Circuit) };
    suite.number(&call, number)?;
    if let Ok(done) = suite.check(&call)? {
        let entries = Sheet::read(&sheet).map_or(0, |sheet| sheet.entries()) as u32;
        suite.number(&Call { entries, message: done.bytes, ..Call::of(Function::ReadCircuit) }, 0)?;
    }
    suite.number(&Call::open_table(2, 0, &sheet, 1), number)
}

/// Sheets: counts and totals at both sides, and the first column at fault.
pub fn sheets(suite: &mut Suite) -> Verdict {
    suite.seed(1);
    for (kind, count, number) in [(18, 1, 2), (18, 2, 0), (18, 64, 0), (18, 65, 2), (18, 0, 2), (18, 255, 2)] {
        sheet(suite, &[kind, count], number)?;
    }
    for (kind, count, number) in [(19, 0, 2), (19, 1, 0), (19, 24, 0), (19, 25, 2), (19, 255, 2)] {
        sheet(suite, &[kind, count], number)?;
    }
    for kind in (0..=255).filter(|kind| !(17..=21).contains(kind)) {
        sheet(suite, &[kind], 1)?;
        sheet(suite, &[17, kind, 17, 0, 0, 0], 1)?;
    }
    tops(suite)?;
    first_fault(suite)?;
    totals(suite)
}

/// Tops at both sides, by each of the four bytes, and cut bodies, whatever stands in them.
fn tops(suite: &mut Suite) -> Verdict {
    for top in [1, 2, 3, 200, 255, 256, 65_535, 65_536, 0x0080_0000, 0x00FF_FFFE, 0x00FF_FFFF] {
        sheet(suite, &top_column(top), 0)?;
    }
    for top in [0, 0x0100_0000, 0x0100_0001, 0x0200_00C8, 0x7FFF_FFFF, 0x8000_0000, 0x8000_0001, u32::MAX] {
        sheet(suite, &top_column(top), 2)?;
    }
    for (length, byte) in (0..4).flat_map(|length| [0, 1, 17, 255].map(|byte| (length, byte))) {
        let cut = [vec![20], vec![byte; length]].concat();
        sheet(suite, &cut, 1)?;
        sheet(suite, &[vec![17], cut].concat(), 1)?;
    }
    Ok(())
}

/// The first column at fault counts, also after too many entries. Of two columns at fault the first is not one that the
/// second could make whole.
fn first_fault(suite: &mut Suite) -> Verdict {
    let whole: [(&[u8], u32); 9] = [
        (&[18, 1], 2),
        (&[19, 25], 2),
        (&[99], 1),
        (&[22], 1),
        (&[21, 0], 2),
        (&[21, 13], 2),
        (&[20, 0, 0, 0, 0], 2),
        (&[20, 0, 0, 0, 1], 2),
        (&[20, 255, 255, 255, 255], 2),
    ];
    let cut: [(&[u8], u32); 6] = [(&[18], 1), (&[19], 1), (&[20], 1), (&[20, 2], 1), (&[20, 0, 0, 0], 1), (&[21], 1)];
    for (one, number) in whole.into_iter().chain(cut) {
        for start in [vec![], vec![17], vec![17; 256], vec![17; 300], top_column(200)] {
            sheet(suite, &[&start[..], one].concat(), number)?;
        }
    }
    for (one, number) in whole {
        for (two, _) in whole.into_iter().chain(cut) {
            sheet(suite, &[one, two].concat(), number)?;
        }
    }
    Ok(())
}

/// 256 entries and not 257, whatever wraps at 8 or 16 bits.
fn totals(suite: &mut Suite) -> Verdict {
    sheet(suite, &[], 2)?;
    for (count, number) in [(1, 0), (255, 0), (256, 0), (257, 2), (512, 2), (65_535, 2), (65_537, 2), (65_792, 2)] {
        sheet(suite, &vec![17; count], number)?;
    }
    for (count, number) in [(4, 0), (5, 2), (1024, 2), (1028, 2)] {
        sheet(suite, &[18, 64].repeat(count), number)?;
    }
    sheet(suite, &[[18, 64].repeat(4), vec![17]].concat(), 2)?;
    for (last, number) in [(5, 0), (6, 2)] {
        sheet(suite, &[[19, 24].repeat(10), vec![19, last]].concat(), number)?;
    }
    // 5 times 49 entries and 11 or 13 more; 85 times 3 entries and 1 or 2 more; 1,338 times 49 is 26 at 16 bits.
    for (last, number) in [(31, 0), (32, 2)] {
        sheet(suite, &[top_column(0xFF_FFFF).repeat(5), top_column(last)].concat(), number)?;
    }
    for (count, number) in [(0, 0), (1, 0), (2, 2)] {
        sheet(suite, &[top_column(1).repeat(85), vec![17; count]].concat(), number)?;
    }
    sheet(suite, &top_column(0x80_0000).repeat(1338), 2)?;
    sheet(suite, &[vec![17; 70_000], vec![99]].concat(), 1)?;
    sheet(suite, &[vec![17; 70_000], vec![18]].concat(), 1)?;
    sheet(suite, &[vec![17; 70_000], vec![18, 65]].concat(), 2)
}

/// Opening: S, the own number, N, and refusal 4.
pub fn opening(suite: &mut Suite) -> Verdict {
    suite.seed(2);
    let open = Call::open_table;
    for (servers, number) in [(0, 2), (1, 2), (2, 0), (8, 0), (9, 2), (258, 2), (65_538, 2), (u32::MAX, 2)] {
        suite.number(&open(servers, 0, &[17], 1), number)?;
    }
    for servers in 2..=8 {
        suite.number(&open(servers, servers - 1, &[17], 1), 0)?;
        for own in [servers, 256, 257, u32::MAX] {
            suite.number(&open(servers, own, &[17], 1), 2)?;
        }
    }
    for (returns, number) in [(0, 2), (1, 0), (1024, 0), (1025, 2), (65_536, 2), (65_537, 2), (u32::MAX, 2)] {
        suite.number(&open(2, 1, &[17, 18, 2], returns), number)?;
    }
    // p - 1 is 2^31 - 2: of b bits 2^(31 - b) returns fit, one more does not.
    for (bits, most) in [(24, 128), (23, 256), (22, 512)] {
        suite.number(&open(2, 1, &[19, bits], most), 0)?;
        suite.number(&open(2, 1, &[19, bits], most + 1), 4)?;
        suite.number(&open(2, 1, &[18, 64, 19, bits, 17], most), 0)?;
        suite.number(&open(2, 1, &[18, 64, 19, bits, 17], most + 1), 4)?;
    }
    // Of a top the N that keep N times it below p; 1,023 times 2,099,202 is p - 1.
    for (top, most) in [(0xFF_FFFF, 128), (0x80_0000, 255), (2_099_203, 1022), (2_099_202, 1023)] {
        suite.number(&open(2, 1, &top_column(top), most), 0)?;
        suite.number(&open(2, 1, &top_column(top), most + 1), 4)?;
        suite.number(&open(2, 1, &[vec![18, 64], top_column(top), vec![17]].concat(), most), 0)?;
        suite.number(&open(2, 1, &[vec![19, 9], top_column(top), vec![17]].concat(), most + 1), 4)?;
    }
    for top in [1, 200, 255, 2_097_151] {
        suite.number(&open(2, 1, &top_column(top), 1024), 0)?;
        suite.number(&open(2, 1, &top_column(top), 1025), 2)?;
    }
    suite.number(&open(2, 1, &[19, 21], 1024), 0)?;
    suite.number(&open(2, 1, &[19, 24], 1024), 4)?;
    suite.number(&open(2, 1, &[19, 24], 1025), 2)
}

/// r and s at both sides, on sheets with other numbers of multiplications.
pub fn pairs(suite: &mut Suite) -> Verdict {
    let sheets = [(vec![17], 1), (vec![18, 64], 64), (vec![19, 24, 17], 25), (vec![17; 256], 256)];
    for (sheet, m) in sheets.into_iter().chain([(top_column(200), 16), (vec![21, 3], 8), (vec![17, 21, 12], 27)]) {
        let fixture = Fixture::new(suite, 2, 1, &sheet, 2)?;
        let rs = [(0, 9), (1, 9), (m, 9), (m + 1, 0), (2 * m, 0), (2 * m + 1, 0), (P - 1, 0), (P, 9), (P + 1, 9)];
        let wide = [((1 << 32) + m + 1, 9), ((1 << 32) + P - 1, 9), ((1 << 63) + m + 1, 9), (u64::MAX, 9)];
        for (r, number) in rs.into_iter().chain(wide) {
            // Where 2M is M + 1 or M is 1 the lists say the same twice.
            suite.number(&Call { r, ..fixture.share() }, number)?;
        }
        for (s, number) in [(0, 0), (1, 0), (P - 1, 0), (P, 9), (P + 1, 9), (1 << 32, 9), (1 << 63, 9), (u64::MAX, 9)] {
            suite.number(&Call { s, ..fixture.share() }, number)?;
        }
    }
    Ok(())
}

/// A return with this id goes through, and the id is then used.
fn id_used(suite: &mut Suite, id: u32) -> Verdict {
    let mut rng = suite.seed(u64::from(id));
    let mut pool = Pool::open(suite, 2, &[17], 3)?;
    let shares = pool.make(suite, &mut rng, id, &[1, 0, 0, 0])?;
    pool.admit(suite, &shares, 9, 9)?;
    for byte in 0..4 {
        let mut message = shares[1].clone();
        let (table, r, s, room) = (pool.tables[1].clone(), 9, 9, ONE_BYTES);
        let call = Call { table, message: message.clone(), r, s, room, ..Call::of(Function::Share) };
        suite.number(&call, 10)?;
        message[1 + byte] ^= 1 << (2 * byte + 1);
        suite.number(&Call { message, ..call }, 0)?;
    }
    Ok(())
}

/// Ids at all four bytes.
pub fn ids(suite: &mut Suite) -> Verdict {
    let ids = [0, 1, 255, 256, 0x0100_0000, 0x8000_0000, 0x1234_5678, P as u32, P as u32 + 1, u32::MAX];
    ids.into_iter().try_for_each(|id| id_used(suite, id))
}

/// Room exact, one short, one more, none.
pub fn rooms(suite: &mut Suite) -> Verdict {
    let mut rng = suite.seed(4);
    let sheets = [(2, vec![17]), (3, vec![17, 18, 3, 19, 4]), (8, vec![17; 256]), (2, [18, 64].repeat(4))];
    for (servers, bytes) in sheets.into_iter().chain([(3, top_column(200)), (2, longest_sheet()), (3, vec![21, 5, 17])])
    {
        let sheet = Sheet::read(&bytes).map_err(|number| format!("refused {number}"))?;
        let circuit = second::circuit(&bytes, usize::MAX).map_or(0, |bytes| bytes.len());
        room(suite, &Call { sheet: bytes.clone(), ..Call::of(Function::Circuit) }, circuit)?;
        let make = Call {
            sheet: bytes.clone(),
            servers,
            values: gen::values(&mut rng, &sheet),
            random: gen::elements(&mut rng, (servers as usize - 1) * sheet.share_elements() + 4),
            ..Call::of(Function::Make)
        };
        room(suite, &make, servers as usize * sheet.share_length())?;
        let (random, seeds) = (make.random[..16].to_vec(), rng.bytes(32 * (servers as usize - 1)));
        let seeded = Call { function: Function::MakeSeeded, random, seeds, ..make };
        room(suite, &seeded, sheet.share_length() + 38 * (servers as usize - 1))?;
        let open = Call::open_table(servers, 0, &bytes, 2);
        room(suite, &open, 14 + bytes.len() + 4 * sheet.published() + 8)?;
        opening_rooms(suite, &open, 8 * (sheet.entries() + 2 * sheet.multiplications() + 8))?;
        let fixture = Fixture::new(suite, servers, 1, &bytes, 2)?;
        room(suite, &fixture.share(), 22)?;
        room(suite, &fixture.round_one(), 14)?;
        room(suite, &fixture.close(), 6 + 4 * sheet.published())?;
        let mut pool = Pool::open(suite, servers, &bytes, 2)?;
        let shares = pool.make_zeros(suite, &mut rng, 5)?;
        pool.admit(suite, &shares, 1_000_003, 19)?;
        let join = pool.close(suite)?;
        room(suite, &join, 4 * sheet.published())?;
    }
    Ok(())
}

fn room(suite: &mut Suite, call: &Call, needed: usize) -> Verdict {
    for (room, number) in [(needed, 0), (needed + 1, 0), (needed + 100, 0), (needed - 1, 14), (1, 14), (0, 14)] {
        suite.number(&Call { room, ..call.clone() }, number)?;
    }
    Ok(())
}

/// Eight records and no other number of them; numbers exact, one short, one more, none.
fn opening_rooms(suite: &mut Suite, open: &Call, needed: usize) -> Verdict {
    for slots in [0, 1, 7, 9, 16, 100] {
        suite.number(&Call { slots, ..open.clone() }, 14)?;
    }
    for (elements, number) in [(needed, 0), (needed + 1, 0), (needed + 100, 0), (needed - 1, 14), (1, 14), (0, 14)] {
        suite.number(&Call { elements, ..open.clone() }, number)?;
    }
    Ok(())
}

/// Elements at both sides, at every place of a share and of random elements.
pub fn elements(suite: &mut Suite) -> Verdict {
    let fixture = Fixture::new(suite, 3, 2, &[19, 2, 17], 2)?;
    for at in (6..fixture.share.len()).step_by(4) {
        for (element, number) in [(0, 0), (P - 1, 0), (P, 8), (P + 1, 8), (1 << 31, 8), ((1 << 32) - 1, 8)] {
            let mut call = fixture.share();
            put_word(&mut call.message, at, element);
            suite.number(&call, number)?;
        }
    }
    let mut rng = suite.seed(3);
    let random = gen::elements(&mut rng, 2 * 16 + 4);
    let values = vec![3, 0, 0, 0, 1, 0, 0, 0];
    let base = Call { sheet: vec![19, 2, 17], servers: 3, values, random, room: 300, ..Call::of(Function::Make) };
    for at in (0..base.random.len()).step_by(4) {
        for (element, number) in [(0, 0), (P - 1, 0), (P, 6), ((1 << 32) - 1, 6)] {
            let mut call = base.clone();
            put_word(&mut call.random, at, element);
            suite.number(&call, number)?;
        }
    }
    Ok(())
}

/// Values at both sides of every column.
pub fn values(suite: &mut Suite) -> Verdict {
    let mut rng = suite.seed(9);
    let columns = [(vec![17], 1), (vec![18, 2], 1), (vec![18, 64], 63), (vec![19, 1], 1), (vec![19, 24], 0xFF_FFFF)];
    let points = (1..=12).map(|bits| (vec![21, bits], (1 << (2 * bits)) - 1));
    // With these tops one more has as many bits, or one bit more.
    let tops = [1, 2, 5, 200, 254, 255, 256, 0x80_0000, 0xFF_FFFE, 0xFF_FFFF].map(|top| (top_column(top), top));
    for (column, last) in columns.into_iter().chain(tops).chain(points) {
        let bytes = [&column[..], &[17]].concat();
        let sheet = Sheet::read(&bytes).map_err(|number| format!("refused {number}"))?;
        let random = gen::elements(&mut rng, sheet.share_elements() + 4);
        let base = Call { sheet: bytes, servers: 2, random, room: 2_000, ..Call::of(Function::Make) };
        let wide = [(1 << 24, 5), (1 << 31, 5), (u32::MAX, 5)];
        for (value, number) in [(0, 0), (last, 0), (last + 1, 5), (last + 256, 5)].into_iter().chain(wide) {
            let values = [value.to_le_bytes(), [1, 0, 0, 0]].concat();
            suite.number(&Call { values, ..base.clone() }, number)?;
        }
    }
    Ok(())
}
