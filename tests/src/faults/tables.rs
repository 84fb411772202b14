//! The faults of opening and of the calls on a table: alone, and among seven others that wait.

use super::{alone_and_in_pairs, fault, returns, rooms, servers, sheets, Fault, P};
use crate::calls::{Call, Function};
use crate::fixture::{other, Fixture, DECIDED, NEXT, UNKNOWN};
use crate::layout::{put_short, put_word, Parts, AWAITS_ENTRY};
use crate::reference::ONE_BYTES;
use crate::seeds::seed_message;
use crate::suite::{Suite, Verdict};

const SHEET: [u8; 5] = [17, 18, 3, 19, 4];

/// A table of server 1 of 3 in which NEXT waits alone, and one in which it waits among others.
pub fn fixtures(suite: &mut Suite) -> Result<[Fixture; 2], String> {
    Ok([Fixture::new(suite, 3, 1, &SHEET, 4)?, Fixture::among(suite, 3, 1, &SHEET, 10, 5)?])
}

/// Not eight records, and fewer numbers than are needed; opening is told how many, the other calls have them.
pub fn parts(order: u32, number: u32, needed: usize) -> Vec<Fault> {
    let slots = |count: usize| {
        fault(order, number, "slots", move |call: &mut Call| {
            call.slots = count;
            call.table.slots.resize(count, Default::default());
        })
    };
    let elements = |count: usize| {
        fault(order, number, "elements", move |call: &mut Call| {
            call.elements = count;
            call.table.elements.truncate(count);
        })
    };
    let mut faults: Vec<Fault> = [0, 1, 7, 9, 16].map(slots).into();
    faults.extend([needed - 1, 1, 0].map(elements));
    faults
}

/// Q outside 1 to N, whatever N is; and N + 1 where it is 128, which is one change with N's.
fn leasts(order: u32) -> Vec<Fault> {
    let least = |place: &'static str, least: u32| fault(order, 2, place, move |call: &mut Call| call.least = least);
    let mut faults: Vec<Fault> = [0, 1025, 65_536, 65_537, u32::MAX].map(|wrong| least("least", wrong)).into();
    faults.push(least("returns", 129));
    faults
}

/// Opening: S and own number, the sheet, N, Q, 4, 14.
pub fn open(suite: &mut Suite) -> Verdict {
    suite.seed(3);
    let number = (vec![17, 18, 3, 19, 24], 14 + 5 + 20 + 4 * 128, 8 * (29 + 2 * 28 + 8), 1);
    let top = (vec![17, 18, 3, 20, 255, 255, 255, 0], 14 + 8 + 20 + 4 * 128, 8 * (53 + 2 * 52 + 8), 128);
    let point = (vec![17, 21, 12], 14 + 3 + 20 + 4 * 128, 8 * (29 + 2 * 27 + 8), 64);
    for (sheet, room, elements, least) in [number, top, point] {
        let base = Call { room, elements, least, ..Call::open_table(3, 2, &sheet, 128) };
        let mut faults = servers(0);
        faults.push(fault(1, 2, "servers", |call| call.servers = 2));
        let own = |own: u32| fault(1, 2, "own", move |call| call.own = own);
        faults.extend([3, 8, 256, 258, u32::MAX].map(own));
        faults.extend(sheets(2));
        faults.extend(returns(3, 5));
        faults.extend(leasts(4));
        faults.extend(rooms(6, room));
        faults.extend(parts(6, 14, elements));
        alone_and_in_pairs(suite, &base, &faults)?;
    }
    Ok(())
}

/// A fault that puts another table in the place of the call's.
fn table(number: u32, wrong: Parts) -> Fault {
    let order = if number == 11 { 0 } else { 1 };
    fault(order, number, "table", move |call| call.table.clone_from(&wrong))
}

/// Tables that no call takes: closed, damaged in each part, and cut short.
pub fn tables(fixture: &Fixture) -> Vec<Fault> {
    let mut wrong = vec![fixture.closed.clone()];
    for table in [&fixture.idle, &fixture.first, &fixture.second, &fixture.third] {
        wrong.push(table.with(|table| table.bytes[0] = 1));
        wrong.push(table.with(|table| table.bytes[1] = 1));
        wrong.push(table.with(|table| table.bytes[1] = 2));
        wrong.push(table.with(|table| table.bytes.truncate(table.bytes.len() - 1)));
        wrong.push(table.with(|table| table.slots[7].stage = 4));
        wrong.push(table.with(|table| table.slots[0].stage = u32::MAX));
    }
    let record = fixture.record;
    for table in [&fixture.first, &fixture.second, &fixture.third] {
        wrong.push(table.with(|table| table.slots[record].r = fixture.multiplications));
        wrong.push(table.with(|table| table.slots[record].e = P));
        let place = table.elements.len() / 8;
        wrong.push(table.with(|table| table.elements[(record + 1) * place - 1] = P as u32));
    }
    wrong.push(Parts::default());
    wrong.push(fixture.first.with(|table| table.bytes.clear()));
    wrong.into_iter().map(|wrong| self::table(11, wrong)).collect()
}

/// A share from a seed: 11, 13, 7, 10, 9, 14.
pub fn share_seed(suite: &mut Suite) -> Verdict {
    for fixture in fixtures(suite)? {
        let mut faults = tables(&fixture);
        if fixture.first.waiting() == 8 {
            faults.push(table(11, fixture.first.clone()));
        }
        faults.push(table(13, fixture.full.clone()));
        let kinds = [0, 32, 33, 34, 35, 36, 37, 39, 255];
        faults.extend(kinds.map(|kind| fault(2, 7, "kind", move |call| call.message[0] = kind)));
        faults.extend([0, 2, 3, 255].map(|own| fault(2, 7, "server", move |call| call.message[5] = own)));
        faults.push(fault(4, 10, "id", |call| put_word(&mut call.message, 1, DECIDED.into())));
        let m = fixture.multiplications;
        faults.extend([0, m, P, (1 << 32) + m + 1, u64::MAX].map(|r| fault(5, 9, "r", move |call| call.r = r)));
        faults.extend([P, 1 << 32, u64::MAX].map(|s| fault(5, 9, "s", move |call| call.s = s)));
        faults.extend(rooms(6, ONE_BYTES));
        let resized = |length: usize| fault(2, 7, "length", move |call| call.message.resize(length, 0));
        faults.extend([0, 1, 6, 34, 37, 39, 42].map(resized));
        faults.extend(parts(0, 11, fixture.idle.elements.len()));
        let message = seed_message(NEXT, 1, &[0xFF; 32]);
        alone_and_in_pairs(suite, &Call { message, ..fixture.share() }, &faults)?;
    }
    Ok(())
}

/// A share: 11, 13, 7, 8, 10, 9, 14.
pub fn share(suite: &mut Suite) -> Verdict {
    for fixture in fixtures(suite)? {
        let mut faults = tables(&fixture);
        // Eight wait: 11 before 13, also where N are decided or wait.
        if fixture.first.waiting() == 8 {
            let decided = fixture.first.bytes[4] - 8;
            faults.push(table(11, fixture.first.clone()));
            faults.push(table(11, fixture.second.with(|table| table.bytes[6] = decided)));
            faults.push(table(11, fixture.third.clone()));
        }
        faults.push(table(13, fixture.full.clone()));
        faults.extend([0, 32, 34, 35, 36].map(|kind| fault(2, 7, "kind", move |call| call.message[0] = kind)));
        faults.extend([0, 2, 3, 255].map(|own| fault(2, 7, "server", move |call| call.message[5] = own)));
        let element =
            |at: usize, wrong: u64| fault(3, 8, "element", move |call| put_word(&mut call.message, at, wrong));
        let length = fixture.share.len();
        faults.extend([
            element(6, P),
            element(10, 1 << 31),
            element(length - 4, P),
            element(length - 8, (1 << 32) - 1),
        ]);
        let id = |id: u32| fault(4, 10, "id", move |call| put_word(&mut call.message, 1, id.into()));
        faults.push(id(DECIDED));
        if fixture.idle.waiting() == 7 {
            faults.extend([0, 1, 4, 7].map(|record| id(other(record))));
        }
        let r = |r: u64| fault(5, 9, "r", move |call| call.r = r);
        let m = fixture.multiplications;
        faults.extend([0, 1, m, P, P + 1, (1 << 32) + m + 1, u64::MAX].map(r));
        faults.extend([P, P + 1, 1 << 32, u64::MAX].map(|s| fault(5, 9, "s", move |call| call.s = s)));
        faults.extend(rooms(6, ONE_BYTES));
        let resized = |length: usize| fault(2, 7, "length", move |call| call.message.resize(length, 0));
        faults.extend([0, 1, 6, length - 4, length - 1, length + 1, length + 4].map(resized));
        faults.extend(parts(0, 11, fixture.idle.elements.len()));
        alone_and_in_pairs(suite, &fixture.share(), &faults)?;
    }
    Ok(())
}

/// Tables in which nothing waits under the named id, or not for this call.
pub fn stages(tables: &[&Parts]) -> Vec<Fault> {
    let stage = |wrong: Parts| fault(0, 11, "named", move |call| call.table.clone_from(&wrong));
    tables.iter().map(|&table| stage(table.clone())).collect()
}

/// Another id is named, none that waits.
pub fn not_waiting() -> Vec<Fault> {
    let named = |id: u32| fault(0, 11, "named", move |call: &mut Call| call.id = id);
    [UNKNOWN, DECIDED, 0, NEXT ^ 1 << 31].map(named).into()
}

/// Entering: 11, in either wait too; those of the others that await entry are entered.
pub fn enter(suite: &mut Suite) -> Verdict {
    for fixture in fixtures(suite)? {
        let mut faults = not_waiting();
        faults.extend(stages(&[&fixture.idle, &fixture.first, &fixture.second, &fixture.full]));
        faults.extend(tables(&fixture));
        faults.extend(parts(0, 11, fixture.idle.elements.len()));
        alone_and_in_pairs(suite, &fixture.enter(), &faults)?;
        for slot in fixture.third.slots.iter().filter(|slot| slot.stage != 0) {
            let number = if slot.stage == AWAITS_ENTRY { 0 } else { 11 };
            suite.number(&Call { id: slot.id, ..fixture.enter() }, number)?;
        }
    }
    Ok(())
}

/// Drop: 11, and in every wait the return is dropped, also those of the others.
pub fn drop(suite: &mut Suite) -> Verdict {
    for fixture in fixtures(suite)? {
        let mut faults = not_waiting();
        faults.extend(stages(&[&fixture.idle, &fixture.full]));
        faults.extend(tables(&fixture));
        faults.extend(parts(0, 11, fixture.idle.elements.len()));
        alone_and_in_pairs(suite, &fixture.drop(), &faults)?;
        for table in [&fixture.first, &fixture.second, &fixture.third] {
            for slot in table.slots.iter().filter(|slot| slot.stage != 0) {
                suite.number(&Call { table: table.clone(), id: slot.id, ..Call::of(Function::Drop) }, 0)?;
            }
        }
    }
    Ok(())
}

/// The table with a Q above the one return that is entered.
fn few(table: &Parts) -> Parts {
    table.with(|table| put_short(&mut table.bytes, 10, 2))
}

/// Close: 11, 15, 14; a full table closes, and none in which others wait.
pub fn close(suite: &mut Suite) -> Verdict {
    let [fixture, among] = fixtures(suite)?;
    let mut faults = tables(&fixture);
    let alone = [&fixture.first, &fixture.second, &fixture.third];
    let waits = [alone, [&among.idle, &among.third, &among.full]].concat();
    faults.extend(waits.iter().map(|&wrong| table(11, wrong.clone())));
    // 11 before 15: one waits, the table is closed or unsound.
    faults.extend(waits.iter().map(|&wrong| table(11, few(wrong))));
    faults.push(table(11, few(&fixture.closed)));
    for (at, byte) in [(0, 2), (1, 2), (2, 1), (3, 3), (8, 2), (13, 1)] {
        faults.push(table(11, few(&fixture.idle).with(|table| table.bytes[at] = byte)));
    }
    faults.extend([&fixture.idle, &fixture.full].map(|wrong| table(15, few(wrong))));
    faults.extend(rooms(2, fixture.closing));
    faults.extend(parts(0, 11, fixture.idle.elements.len()));
    alone_and_in_pairs(suite, &fixture.close(), &faults)?;
    suite.number(&Call { table: fixture.full.clone(), ..fixture.close() }, 0)?;
    suite.number(&Call { table: fixture.full.clone(), room: 0, ..Call::of(Function::Close) }, 14)
}
