//! Verdict first, entry second: entering at the right time and at every other, in the plain and
//! in the lent form.

mod common;

use common::hall::*;
use common::pool::{self, End, Pool};
use common::{honest, with, ONE_BYTES, P32};
use second::field;
use second::gen::{Answer, Call, Server};
use second::{Stage, Verdict};

/// An accepted verdict decides nothing and adds nothing; entering does both.
#[test]
fn the_verdict_adds_nothing() {
    let mut hall = Hall::waiting(5, [1]);
    hall.one_all(1);
    let before = hall.tables.clone();
    hall.two_all(1);
    for (table, before) in hall.tables.iter().zip(&before) {
        assert_eq!(table.plain.stage(1), Some(Stage::AwaitsEntry));
        assert_eq!((table.plain.entered(), table.plain.decided()), (0, &[][..]));
        assert_eq!(table.lent.bytes, before.lent.bytes);
        assert_eq!(table.lent.numbers, before.lent.numbers);
    }
    hall.enter_all(1);
    for table in &hall.tables {
        assert_eq!(table.plain.stage(1), None);
        assert_eq!(
            (table.plain.entered(), table.plain.decided()),
            (1, &[1][..])
        );
        assert_eq!(table.lent.bytes[6..10], [1, 0, 1, 0]);
    }
}

/// Entering twice is refused 11: the share is in the totals exactly once.
#[test]
fn entered_once() {
    let mut hall = Hall::waiting(5, [1]);
    hall.accept_all(1);
    hall.enter_all(1);
    for _ in 0..3 {
        hall.refused(11, Call::Enter { id: 1 });
    }
    let entries = field::elements(&honest(&SHEET, 2, 1)[0][6..]).unwrap();
    // A yes/no, three options, and the number without its bits.
    let totals: Vec<u32> = entries[..5].iter().map(|&entry| entry as u32).collect();
    let closing = common::closing(0, 1, &totals);
    assert_eq!(hall.tables[0].call(&CLOSE), Answer::Message(closing));
    hall.refused(11, Call::Enter { id: 1 });
}

/// An id without an accepted verdict is refused 11: in either wait, rejected, dropped in any
/// wait, entered, or unknown.
#[test]
fn entering_at_other_times() {
    let mut pool = Pool::open(3, 20, 1);
    pool.refused(11, Call::Enter { id: 0 });
    let id = pool.share();
    pool.refused(11, Call::Enter { id });
    pool.one(id);
    pool.refused(11, Call::Enter { id });
    pool.reject(id);
    pool.refused(11, Call::Enter { id });
    pool.refused(11, Call::Drop { id });
    for end in [
        End::Entered,
        End::Rejected,
        End::Dropped,
        End::DroppedLate,
        End::DroppedAccepted,
    ] {
        pool.take(end);
    }
    for id in (0..120).chain([u32::MAX]) {
        pool.refused(11, Call::Enter { id });
    }
    assert_eq!(pool.closed().count, 1);
    for id in 100..106 {
        pool.refused(11, Call::Enter { id });
    }
}

/// A rejected return is decided straight away: its place is free and its id used.
#[test]
fn rejected_as_before() {
    let mut pool = Pool::open(2, 3, 1);
    let id = pool.share();
    pool.one(id);
    pool.reject(id);
    for table in &pool.tables {
        assert_eq!(table.plain.decided(), [id]);
        assert_eq!(table.plain.waiting(), []);
        assert_eq!(table.plain.entered(), 0);
    }
    let call = pool.share_call(0, id);
    assert_eq!(pool.tables[0].call(&call), Answer::Refused(10));
}

/// Closing while one waits for entry is 11, before 15 and 14, with Q entered or not.
#[test]
fn no_close_while_one_awaits_entry() {
    for (least, entered) in [(1, 0), (1, 1), (2, 1), (2, 2), (2, 4)] {
        let mut pool = Pool::open(2, 9, least);
        (0..entered).for_each(|_| pool.take(End::Entered));
        let id = pool.accepted();
        for room in [0, 17, 18, 1000] {
            pool.refused(11, Call::Close { room });
        }
        let mut dropped = pool.clone();
        dropped.drop(id);
        if entered < least {
            dropped.refused(15, pool::CLOSE);
        } else {
            assert_eq!(dropped.closed().count, entered);
        }
        pool.enter(id);
        if entered + 1 < least {
            pool.refused(15, pool::CLOSE);
        } else {
            assert_eq!(pool.closed().count, entered + 1);
        }
    }
}

/// "A return accepted but dropped is in none" of the totals, and its id is used.
#[test]
fn accepted_but_dropped() {
    let mut pool = Pool::open(3, 6, 2);
    let first = pool.accepted();
    let second = pool.accepted();
    let third = pool.accepted();
    pool.enter(third);
    pool.drop(second);
    pool.refused(11, Call::Enter { id: second });
    pool.refused(11, Call::Drop { id: second });
    for own in 0..3 {
        let call = pool.share_call(own, second);
        assert_eq!(pool.tables[own].call(&call), Answer::Refused(10));
        assert_eq!(pool.tables[own].plain.decided(), [third, second]);
        assert_eq!(pool.tables[own].plain.entered(), 1);
    }
    pool.refused(11, pool::CLOSE);
    pool.enter(first);
    assert_eq!(pool.closed().count, 2);
}

/// Q is of entered returns, however many verdicts were accepted.
#[test]
fn the_least_count_is_of_entered_returns() {
    for least in 1..=4 {
        let mut pool = Pool::open(2, 8, least);
        let ids: Vec<u32> = (0..8).map(|_| pool.accepted()).collect();
        for (entered, &id) in (1..).zip(&ids) {
            let mut others = pool.clone();
            ids[entered - 1..].iter().for_each(|&id| others.drop(id));
            if entered as u32 <= least {
                others.refused(15, pool::CLOSE);
            } else {
                assert_eq!(others.closed().count as usize, entered - 1);
            }
            pool.enter(id);
        }
        assert_eq!(pool.closed().count, 8);
    }
}

/// A return that awaits entry is one of the eight: a ninth is 11, and entering makes room.
#[test]
fn one_of_the_eight() {
    for accepted in 0..=8 {
        let mut hall = Hall::waiting(20, 0..8);
        for id in 0..accepted {
            hall.accept_all(id);
        }
        hall.refused(11, share(0, 8));
        hall.refused(11, share_of(Vec::new(), 0));
        for id in 0..accepted {
            let mut other = hall.clone();
            other.enter_all(id);
            other.share_all(8);
            other.refused(11, share(0, 9));
            assert_eq!(other.tables[0].lent.slots[id as usize].id, 8);
        }
    }
}

/// Until it is entered or dropped it counts for 13, and afterwards too.
#[test]
fn counted_with_the_decided() {
    for (limit, decided) in [(1, 0), (2, 0), (3, 1), (8, 1), (9, 4)] {
        let mut hall = Hall::waiting(limit, 0..decided);
        (0..decided).for_each(|id| hall.drop_all(id));
        for id in decided..limit {
            hall.share_all(id);
            hall.accept_all(id);
        }
        for id in decided..limit {
            hall.refused(13, share(0, limit));
            hall.refused(13, share(0, id));
            hall.refused(13, share_of(Vec::new(), 0));
            if id % 2 == 0 {
                hall.enter_all(id);
            } else {
                hall.drop_all(id);
            }
        }
        hall.refused(13, share(0, limit));
    }
}

/// The id of a return that awaits entry is 10 in a share: after 7 and 8, before 9 and 14.
#[test]
fn its_id_is_used() {
    let mut hall = Hall::waiting(5, [7]);
    hall.accept_all(7);
    let good = honest(&SHEET, 2, 7)[0].clone();
    let large = with(&good, 6, &P32.to_le_bytes());
    hall.refused(7, share_of(with(&large, 0, &[34]), 0));
    hall.refused(8, share_of(large, 0));
    hall.refused(10, share_of(good.clone(), 0));
    for room in [0, ONE_BYTES] {
        let (message, r, s) = (good.clone(), 100, 3);
        hall.refused(
            10,
            Call::Share {
                message,
                r,
                s,
                room,
            },
        );
    }
}

/// Rounds of a return that awaits entry are 11, before 12; its verdict is given once.
#[test]
fn one_verdict() {
    let mut hall = Hall::waiting(5, [1, 2]);
    hall.accept_all(1);
    hall.one_all(2);
    for joined in [&hall.first[&1].clone(), &hall.second[&1].clone(), &vec![]] {
        hall.refused(11, one(1, joined));
        hall.refused(11, two(1, joined));
    }
    // Another return's verdict has no say.
    let other = hall.second[&2].clone();
    hall.refused(11, two(1, &other));
    assert_eq!(hall.stage(1), Some(Stage::AwaitsEntry));
    let rejected = with(&other, 14 + 6, &[other[14 + 6] ^ 1]);
    let answer = hall.tables[0].call(&two(2, &rejected));
    assert_eq!(answer, Answer::Verdict(Verdict::Rejected));
    hall.refused(11, Call::Enter { id: 2 });
    hall.enter_all(1);
    assert_eq!(hall.tables[0].plain.decided(), [2, 1]);
}
