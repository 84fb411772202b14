//! Lent tables that come from no opening.

mod common;

use common::lent_model::{changed, check, put, sound, stages, taken, Stages};
use common::lent_table::{Lent, FILL_SLOT};
use common::P32;
use second::field::P;
use second::gen::{Answer, Call, Server};
use second::lent::Slot;
use second::Sheet;

/// Sheets of every kind, all small.
const SHEETS: [&[u8]; 6] = [
    &[17, 18, 3, 19, 5],
    &[17],
    &[17; 9],
    &[18, 2, 18, 4],
    &[20, 6, 0, 0, 0, 18, 2],
    &[17, 21, 2],
];

#[test]
fn header_and_sheet_bytes_changed() {
    for (sheet, limit) in [
        (&[17, 18, 3, 19, 24][..], 6),
        (&[17], 6),
        (&[17; 9], 1024),
        (&[20, 5, 0, 0, 0, 17], 6),
        (&[21, 1, 17], 6),
    ] {
        let Stages { tables, calls } = stages(sheet, limit);
        for (number, table) in tables.iter().enumerate() {
            assert_eq!(check(table, &calls), number < 5);
            for at in 0..14 + sheet.len() {
                for byte in 0..=255 {
                    let other = changed(table, |t| t.bytes[at] = byte);
                    check(&other, &calls);
                }
            }
        }
    }
}

/// N, the counts and the table byte at both sides of their limits.
#[test]
fn counts_at_their_limits() {
    let Stages { tables, calls } = stages(&[17], 6);
    let put = |table: &Lent, at, number| check(&put(table, at, number), &calls);
    let counts = [(2, 0), (2, 1), (2, 1), (2, 1), (3, 3)];
    for (table, (decided, waiting)) in tables.iter().zip(counts) {
        assert_eq!(table.bytes[4..12], [6, 0, decided as u8, 0, 1, 0, 1, 0]);
        assert!(put(table, 6, 6 - waiting) && !put(table, 6, 7 - waiting));
        assert!(put(table, 6, 1) && !put(table, 6, 0));
        assert!(put(table, 8, decided) && !put(table, 8, decided + 1));
        let least = decided + waiting;
        assert!(put(table, 4, least) && !put(table, 4, least - 1));
        // The buffer has room for 16 ids.
        assert!(put(table, 4, 16) && !put(table, 4, 17));
        for byte in [0, 1, 2, 4, 255] {
            let other = changed(table, |t| t.bytes[0] = byte);
            assert!(!check(&other, &calls));
        }
    }
}

/// Each field of a record at both sides of its limits. A free record's are free.
#[test]
fn records_at_their_limits() {
    for sheet in SHEETS {
        let Stages { tables, calls } = stages(sheet, 8);
        let gates = Sheet::read(sheet).unwrap().multiplications() as u64;
        for (table, record) in tables[..5].iter().flat_map(|t| (0..8).map(move |i| (t, i))) {
            let free = table.slots[record].stage == 0;
            let with = |change: &dyn Fn(&mut Slot)| {
                let other = changed(table, |t| change(&mut t.slots[record]));
                check(&other, &calls)
            };
            for r in [0, 1, gates, P, P + 1, (1 << 32) + gates + 1, u64::MAX] {
                assert_eq!(with(&|slot| slot.r = r), free);
            }
            for r in [gates + 1, 2 * gates, P - 1] {
                assert!(with(&|slot| slot.r = r));
            }
            for element in [0, P - 1, P, P + 1, 1 << 32, u64::MAX] {
                let fits = free || element < P;
                assert_eq!(with(&|slot| slot.s = element), fits);
                assert_eq!(with(&|slot| slot.d = element), fits);
                assert_eq!(with(&|slot| slot.e = element), fits);
            }
            for id in [0, 1, 2, 3, 5, u32::MAX] {
                assert!(with(&|slot| slot.id = id));
            }
            for stage in [4, 5, 255, 256, 257, 259, 1 << 31, u32::MAX] {
                assert!(!with(&|slot| slot.stage = stage));
            }
            // A record of 0 has no r above M.
            assert!(with(&|slot| slot.stage = 0));
            for stage in 1..=3 {
                assert_eq!(with(&|slot| slot.stage = stage), !free);
            }
        }
    }
}

/// Each number of each place, and each total, at both sides of its limit.
#[test]
fn elements_at_their_limits() {
    for sheet in SHEETS {
        let Stages { tables, calls } = stages(sheet, 6);
        let published = Sheet::read(sheet).unwrap().published();
        for table in &tables[..5] {
            let width = table.run / 8;
            for at in 0..table.numbers.len() {
                // Past the run all is free as well.
                let free = at >= table.run || table.slots[at / width].stage == 0;
                let with = |number: u32| {
                    let other = changed(table, |t| t.numbers[at] = number);
                    check(&other, &calls)
                };
                assert!(with(0) && with(P32 - 1));
                for number in [P32, P32 + 1, 1 << 31, u32::MAX] {
                    assert_eq!(with(number), free, "{at}");
                }
            }
            let totals = 14 + sheet.len();
            let ids = totals + 4 * published;
            for at in (totals..table.length).step_by(4) {
                let with = |number: u32| {
                    let other = changed(table, |t| {
                        t.bytes[at..at + 4].copy_from_slice(&number.to_le_bytes())
                    });
                    check(&other, &calls)
                };
                assert!(with(0) && with(P32 - 1));
                for number in [P32, P32 + 1, 1 << 31, u32::MAX] {
                    assert_eq!(with(number), at >= ids);
                }
            }
        }
    }
}

/// Too few bytes, too few numbers, other than eight records.
#[test]
fn short_and_long_parts() {
    let Stages { tables, calls } = stages(&[17, 18, 3, 19, 5], 6);
    for (number, table) in tables.iter().enumerate() {
        let fits = |fits: bool| fits && number < 5;
        for length in 0..table.bytes.len() {
            let other = changed(table, |t| t.bytes.truncate(length));
            assert_eq!(check(&other, &calls), fits(length >= table.length));
        }
        for run in 0..table.numbers.len() {
            let other = changed(table, |t| t.numbers.truncate(run));
            assert_eq!(check(&other, &calls), fits(run >= table.run));
        }
        for slots in [0, 1, 7, 8, 9, 16] {
            let other = changed(table, |t| t.slots.resize(slots, Slot::default()));
            assert_eq!(check(&other, &calls), fits(slots == 8));
        }
    }
    for (length, run) in [(0, 0), (13, 7000), (14, 7000), (44, 0), (7000, 7000)] {
        for byte in [0, 1, 2, 3, 17, 255] {
            let table = Lent {
                bytes: vec![byte; length],
                slots: vec![Slot::default(); 8],
                numbers: vec![0; run],
                length,
                run,
            };
            assert_eq!(taken(&table, &calls), [false; 8]);
        }
    }
}

/// An id that waits in two records, or waits and is decided: the first record that waits under
/// it counts.
#[test]
fn ids_that_come_twice() {
    let Stages { tables, calls } = stages(&[17, 19, 3], 8);
    let both = &tables[4];
    let told = both.slots.iter().map(|slot| (slot.id, slot.stage));
    assert!(told.take(4).eq([(3, 1), (0, 0), (5, 2), (6, 3)]));
    // Both records under 5: the first one awaits round one.
    let twice = changed(both, |t| t.slots[0].id = 5);
    assert!(check(&twice, &calls));
    assert_eq!(twice.clone().call(&calls[2]), Answer::Refused(11));
    let mut dropped = twice.clone();
    assert_eq!(dropped.call(&Call::Drop { id: 5 }), Answer::Dropped);
    assert_eq!(dropped.slots[0], Slot::default());
    assert_eq!(dropped.slots[2], both.slots[2]);
    assert!(matches!(dropped.call(&calls[2]), Answer::Verdict(_)));
    // A free record that holds the id is no record of it.
    let free = changed(both, |t| t.slots[0].stage = 0);
    let free = changed(&free, |t| t.slots[0].id = 5);
    assert!(matches!(free.clone().call(&calls[2]), Answer::Verdict(_)));
    assert_eq!(free.clone().call(&calls[1]), Answer::Refused(11));
    // A decided id that waits.
    let decided = changed(both, |t| {
        let ids = t.length - 4 * 8;
        t.bytes[ids..ids + 4].copy_from_slice(&5u32.to_le_bytes());
    });
    assert!(check(&decided, &calls));
    assert!(matches!(
        decided.clone().call(&calls[2]),
        Answer::Verdict(_)
    ));
    assert_eq!(sound(&decided), sound(both));
}

/// The first record that waits under an id counts for entering too.
#[test]
fn entries_of_ids_that_come_twice() {
    let Stages { tables, calls } = stages(&[17, 19, 3], 8);
    let all = &tables[4];
    let twice = changed(all, |t| t.slots[0].id = 6);
    assert!(check(&twice, &calls));
    let enter = Call::Enter { id: 6 };
    assert_eq!(twice.clone().call(&enter), Answer::Refused(11));
    let mut dropped = twice.clone();
    assert_eq!(dropped.call(&Call::Drop { id: 6 }), Answer::Dropped);
    assert_eq!(dropped.slots[3], all.slots[3]);
    assert_eq!(dropped.call(&enter), Answer::Entered);
    // Two that await entry: each is added by an entry of its own.
    let both = changed(all, |t| {
        t.slots[0] = t.slots[3];
        let width = t.run / 8;
        t.numbers.copy_within(3 * width..4 * width, 0);
    });
    let mut once = both.clone();
    assert_eq!(once.call(&enter), Answer::Entered);
    assert_eq!((once.slots[0].stage, once.slots[3].stage), (0, 3));
    assert_eq!(once.call(&enter), Answer::Entered);
    assert_eq!(once.call(&enter), Answer::Refused(11));
    assert_eq!(once.bytes[8], all.bytes[8] + 2);
}

/// Eight records that wait in a table with N = 1,024: the last place counts as the others.
#[test]
fn all_eight_places() {
    let Stages { tables, calls } = stages(&[18, 3], 1024);
    let mut table = tables[1].clone();
    let width = table.run / 8;
    let first = table.place(0).to_vec();
    for record in 1..8 {
        table.slots[record] = table.slots[0];
        table.slots[record].id += 100 * record as u32;
        table.numbers[width * record..][..width].copy_from_slice(&first);
    }
    assert!(check(&table, &calls));
    assert_eq!(table.clone().call(&calls[0]), Answer::Refused(11));
    for record in 0..8 {
        for at in [width * record, width * (record + 1) - 1] {
            let other = changed(&table, |t| t.numbers[at] = P32);
            assert!(!check(&other, &calls));
            let other = changed(&other, |t| t.slots[record].stage = 0);
            assert!(check(&other, &calls));
        }
    }
}

/// What is free has no say: records and places that are free, ids that are not decided yet.
#[test]
fn free_parts_have_no_say() {
    for sheet in SHEETS {
        let Stages { tables, calls } = stages(sheet, 8);
        for table in &tables[..5] {
            let width = table.run / 8;
            let full = changed(table, |t| {
                for record in (0..8).filter(|&i| table.slots[i].stage == 0) {
                    t.slots[record] = Slot {
                        stage: 0,
                        ..FILL_SLOT
                    };
                    t.numbers[width * record..][..width].fill(u32::MAX);
                }
                let decided = usize::from(t.bytes[6]);
                let ids = t.length - 4 * 8 + 4 * decided;
                t.bytes[ids..].fill(0xFF);
                t.numbers[table.run..].fill(0);
            });
            assert!(check(&full, &calls));
            for call in &calls {
                let (mut full, mut table) = (full.clone(), table.clone());
                assert_eq!(full.call(call), table.call(call));
                for record in (0..8).filter(|&i| table.slots[i].stage != 0) {
                    assert_eq!(full.slots[record], table.slots[record]);
                    assert_eq!(full.place(record), table.place(record));
                }
            }
        }
    }
}
