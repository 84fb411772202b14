//! The refusals of the calls without a table and of opening, and their order.

mod common;

use common::*;
use second::gen::Rng;
use second::{close, drop, enter, join, make, open, round_one, round_two, share, shelve, unshelve};
use second::{Joined, Sheet};

#[test]
fn opening() {
    let refused = |servers, own, sheet: &[u8], limit| open(servers, own, sheet, limit, 1).err();
    for servers in [0, 1, 9, 258, 65_538, u32::MAX] {
        assert_eq!(refused(servers, 0, &[20], 0), Some(2));
    }
    for servers in 2..=8 {
        for own in 0..servers {
            assert_eq!(refused(servers, own, &[17], 1), None);
        }
        for own in [servers, servers + 1, 256, 258, u32::MAX] {
            assert_eq!(refused(servers, own, &[20], 0), Some(2));
        }
    }
    // The sheet before N, N before 4.
    assert_eq!(refused(2, 0, &[20], 0), Some(1));
    assert_eq!(refused(2, 0, &[18, 1], 0), Some(2));
    assert_eq!(refused(2, 0, &[17], 0), Some(2));
    assert_eq!(refused(2, 0, &[17], 1024), None);
    assert_eq!(refused(2, 0, &[17], 1025), Some(2));
    assert_eq!(refused(2, 0, &[17], u32::MAX), Some(2));
    assert_eq!(refused(2, 0, &[19, 24], 1025), Some(2));
    assert_eq!(refused(2, 0, &[19, 24], 1024), Some(4));
    assert_eq!(refused(2, 0, &[17, 19, 24, 17], 129), Some(4));
    assert_eq!(refused(2, 0, &[19, 23], 256), None);
    assert_eq!(refused(2, 0, &[19, 23], 257), Some(4));
    // 1,024 times 2^21 - 1 is below p, 1,024 times 2^22 - 1 is not.
    assert_eq!(refused(2, 0, &[19, 21], 1024), None);
    assert_eq!(refused(2, 0, &[19, 22], 1024), Some(4));
    // T is the largest value; 1,023 times 2,099,202 is p - 1.
    for (top, most) in [
        (16_777_215, 128),
        (16_777_214, 128),
        (8_388_607, 256),
        (8_388_608, 255),
        (2_099_203, 1022),
        (2_099_202, 1023),
        (2_097_151, 1024),
        (200, 1024),
        (1, 1024),
    ] {
        let more = if most == 1024 { 2 } else { 4 };
        assert_eq!(refused(2, 0, &top_column(top), most), None);
        assert_eq!(refused(2, 0, &top_column(top), most + 1), Some(more));
    }
    assert_eq!(refused(2, 0, &top_column(2_097_152), 1024), Some(4));
}

/// The square of 2^b - 1 is the largest value: 128 times 16,769,025 is below p.
#[test]
fn opening_with_points() {
    for (bits, most) in [(12, 128), (11, 512), (10, 1024), (1, 1024)] {
        let refused = |limit| open(2, 0, &[17, 21, bits], limit, 1).err();
        let more = if most == 1024 { 2 } else { 4 };
        assert_eq!(refused(most), None);
        assert_eq!(refused(most + 1), Some(more));
    }
}

#[test]
fn making() {
    let sheet = [17, 18, 3];
    let shape = Sheet::read(&sheet).unwrap();
    let elements = shape.share_elements();
    assert_eq!(elements, 4 + 8 + 6);
    let values = words(&[1, 2]);
    let random = words(&vec![P32 - 1; elements + 4]);
    let room = 2 * shape.share_length();
    let good = make(&sheet, 2, 5, &values, &random, room).unwrap();
    assert_eq!(good.len(), room);

    // Peel one fault after the other: sheet, S, 5, 6, 14.
    let wrong = words(&[1, 3]);
    assert_eq!(make(&[20], 9, 5, &wrong, &[], 0), Err(1));
    assert_eq!(make(&[], 9, 5, &wrong, &[], 0), Err(2));
    assert_eq!(make(&sheet, 9, 5, &wrong, &[], 0), Err(2));
    assert_eq!(make(&sheet, 258, 5, &wrong, &[], 0), Err(2));
    assert_eq!(make(&sheet, 2, 5, &wrong, &[], 0), Err(5));
    assert_eq!(make(&sheet, 2, 5, &values, &[], 0), Err(6));
    assert_eq!(make(&sheet, 2, 5, &values, &random, 0), Err(14));
    assert_eq!(make(&sheet, 2, 5, &values, &random, room - 1), Err(14));

    wrong_values(&sheet, &values, &random, room);
    wrong_random(&sheet, &values, &random, room);
}

/// Values at fault: too few, too many, one outside its column.
fn wrong_values(sheet: &[u8], values: &[u8], random: &[u8], room: usize) {
    for wrong in [
        &[][..],
        &[1],
        &[1, 2, 0],
        &[2, 0],
        &[0, 3],
        &[u32::MAX, 0],
        &[257, 0],
    ] {
        assert_eq!(make(sheet, 2, 5, &words(wrong), random, room), Err(5));
    }
    assert_eq!(make(sheet, 2, 5, &values[..7], random, room), Err(5));
}

/// T is taken and T + 1 is not, whether it fits b bits or not.
#[test]
fn values_at_the_top() {
    for top in tops() {
        let sheet = top_column(top);
        let shape = Sheet::read(&sheet).unwrap();
        let random = words(&vec![3; shape.share_elements() + 4]);
        for (value, number) in [
            (0, None),
            (top - 1, None),
            (top, None),
            (top + 1, Some(5)),
            (
                (2 << top.ilog2()) - 1,
                Some(5).filter(|_| !(top + 1).is_power_of_two()),
            ),
            (2 << top.ilog2(), Some(5)),
            (u32::MAX, Some(5)),
        ] {
            let made = make(&sheet, 2, 1, &words(&[value]), &random, ROOM);
            assert_eq!(made.err(), number, "{value} of {top}");
        }
    }
}

/// x + 2^b × y is below 4^b.
#[test]
fn values_of_points() {
    for bits in 1..=12 {
        let sheet = [21, bits];
        let shape = Sheet::read(&sheet).unwrap();
        let random = words(&vec![3; shape.share_elements() + 4]);
        let past = 1u32 << (2 * bits);
        for value in [0, 1, 1 << bits, past - (1 << bits), past - 1] {
            assert!(make(&sheet, 2, 1, &words(&[value]), &random, ROOM).is_ok());
        }
        for value in [past, past + 1, 2 * past, u32::MAX] {
            let made = make(&sheet, 2, 1, &words(&[value]), &random, ROOM);
            assert_eq!(made, Err(5));
        }
    }
}

/// Random elements at fault: too few, too many, one not below p.
fn wrong_random(sheet: &[u8], values: &[u8], random: &[u8], room: usize) {
    let short = &random[..random.len() - 1];
    assert_eq!(make(sheet, 2, 5, values, short, room), Err(6));
    let long = resized(random, random.len() + 1);
    assert_eq!(make(sheet, 2, 5, values, &long, room), Err(6));
    assert_eq!(make(sheet, 3, 5, values, random, ROOM), Err(6));
    for at in 0..random.len() / 4 {
        let wrong = with(random, 4 * at, &P32.to_le_bytes());
        assert_eq!(make(sheet, 2, 5, values, &wrong, room), Err(6));
    }
}

#[test]
fn joining() {
    let sheet = [17, 19, 2];
    let good = [closing(0, 2, &[1, P32 - 1]), closing(1, 2, &[P32 - 1, 3])].concat();
    let answer = Joined {
        count: 2,
        totals: words(&[0, 2]),
    };
    assert_eq!(join(2, &sheet, 2, &good, 8), Ok(answer.clone()));
    assert_eq!(join(2, &sheet, 700, &good, ROOM), Ok(answer));

    // Peel one fault after the other: S, sheet, N, 4, 12, 14.
    assert_eq!(join(9, &[20], 0, &[], 0), Err(2));
    assert_eq!(join(258, &[20], 0, &[], 0), Err(2));
    assert_eq!(join(2, &[20], 0, &[], 0), Err(1));
    assert_eq!(join(2, &[19, 24], 0, &[], 0), Err(2));
    assert_eq!(join(2, &[19, 24], 129, &[], 0), Err(4));
    assert_eq!(join(2, &[19, 24], 128, &[], 0), Err(12));
    assert_eq!(join(2, &sheet, 2, &good, 7), Err(14));
    assert_eq!(join(2, &sheet, 2, &good, 0), Err(14));

    wrong_closings(&sheet, &good);
    // Counts over N.
    assert_eq!(join(2, &sheet, 1, &good, 8), Err(12));
    // A count of 0 with totals that are not 0 is no fault.
    let none = [closing(0, 0, &[1, 2]), closing(1, 0, &[3, 4])].concat();
    assert_eq!(
        join(2, &sheet, 2, &none, 8),
        Ok(Joined {
            count: 0,
            totals: words(&[4, 6]),
        })
    );
}

/// Two closing messages of two elements each, with every kind of fault, one at a time.
fn wrong_closings(sheet: &[u8], good: &[u8]) {
    let wrong = |joined: Vec<u8>| assert_eq!(join(2, sheet, 2, &joined, 8), Err(12));
    for length in (0..good.len()).chain([good.len() + 1, good.len() + 14]) {
        wrong(resized(good, length));
    }
    for place in [0, 14] {
        // Kind, server and count, bit by bit.
        for at in place..place + 6 {
            for bit in 0..8 {
                wrong(with(good, at, &[good[at] ^ 1 << bit]));
            }
        }
        for at in [place + 6, place + 10] {
            for large in [P32, u32::MAX] {
                wrong(with(good, at, &large.to_le_bytes()));
            }
        }
    }
    wrong([&good[14..], &good[..14]].concat());
}

#[test]
fn any_bytes_at_every_call() {
    // Nothing here may panic.
    let mut rng = Rng::new(11);
    for round in 0..3000 {
        let length = rng.index(80);
        let bytes = rng.bytes(length);
        let (r, s) = (rng.next_u64(), rng.next_u64());
        let number = rng.next_u64() as u32;
        let _ = second::sizes(&bytes);
        let _ = second::circuit(&bytes, ROOM);
        let _ = second::every_return(&bytes, length);
        let _ = second::read_circuit(number % 300, &bytes);
        let _ = second::recount(&bytes);
        let _ = make(&bytes, number % 10, number, &bytes, &bytes, ROOM);
        let _ = make(&[17], number % 10, number, &bytes, &bytes, ROOM);
        let _ = open(number % 10, number % 9, &bytes, number % 1100, number % 7);
        let _ = open(2, 0, &[17], number % 1100, number);
        let _ = join(number % 10, &bytes, number % 1100, &bytes, ROOM);
        let _ = join(number, &[17], number, &bytes, 0);
        let _ = shelve(number % 70, number, &bytes, ROOM);
        let _ = unshelve(number, number % 5000, &bytes, length);
        let mut table = open(2, round % 2, &[17], 3, 1).unwrap();
        let _ = share(&mut table, &bytes, r, s, ROOM);
        let _ = round_one(&mut table, number, &bytes, ROOM);
        let _ = round_two(&mut table, number, &bytes);
        let _ = enter(&mut table, number);
        let _ = drop(&mut table, number);
        let _ = close(&mut table, length);
    }
}
