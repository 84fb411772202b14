//! Up to eight returns that wait at a table, in the plain and in the lent form.

mod common;

use common::hall::*;
use common::{honest, with, ONE_BYTES, P32};
use second::field::P;
use second::gen::{Answer, Call, Server};
use second::Stage;

#[test]
fn a_ninth_return_is_refused_11() {
    for limit in [8, 9, 1024] {
        let mut hall = Hall::waiting(limit, 0..8);
        // However broken the share, and with N reached or not.
        hall.refused(11, share(0, 8));
        hall.refused(11, share(0, 3));
        hall.refused(11, share_of(Vec::new(), 0));
        // With one place free again it is taken, or refused 13 where N is reached.
        hall.drop_all(5);
        let answer = hall.tables[0].call(&share(0, 8));
        if limit == 8 {
            assert_eq!(answer, Answer::Refused(13));
        } else {
            assert!(matches!(answer, Answer::Message(_)));
            hall.refused(11, share(0, 9));
        }
    }
}

/// Decided and waiting together reach N.
#[test]
fn n_counts_waiting_returns() {
    for (limit, decided) in [(8, 1), (8, 7), (9, 2), (3, 1), (2, 0), (1, 0)] {
        let mut hall = Hall::open(limit);
        for id in 0..decided {
            hall.share_all(id);
            hall.drop_all(id);
        }
        for id in decided..limit {
            hall.share_all(id);
        }
        assert!(hall.tables[0].plain.waiting().len() <= 8);
        hall.refused(13, share(0, limit));
        hall.refused(13, share(0, limit - 1));
        hall.refused(13, share_of(Vec::new(), 0));
        // A return that is decided makes no room.
        hall.one_all(limit - 1);
        hall.refused(13, share(0, limit));
        hall.two_all(limit - 1);
        hall.refused(13, share(0, limit));
        hall.enter_all(limit - 1);
        hall.refused(13, share(0, limit));
    }
}

/// An id that waits: 10, after 7 and 8, before 9 and 14.
#[test]
fn an_id_that_waits_is_refused_10() {
    let mut hall = Hall::waiting(20, [5, 6, 7]);
    hall.one_all(7);
    hall.accept_all(5);
    for id in [5, 6, 7] {
        let good = honest(&SHEET, 2, id)[0].clone();
        let large = with(&good, 6, &P32.to_le_bytes());
        hall.refused(7, share_of(with(&large, 0, &[34]), 0));
        hall.refused(7, share_of(with(&large, 5, &[1]), 0));
        hall.refused(8, share_of(large, 0));
        for (r, room) in [(0, 0), (P, ONE_BYTES), (100, 0), (100, ONE_BYTES)] {
            let message = good.clone();
            let call = Call::Share {
                message,
                r,
                s: 3,
                room,
            };
            hall.refused(10, call);
        }
    }
    hall.refused(9, share_of(honest(&SHEET, 2, 8)[0].clone(), 0));
    hall.share_all(8);
}

/// A call on an id that is not at the stage it needs: 11, before 12 and 14.
#[test]
fn each_id_has_its_own_stage() {
    let mut hall = Hall::waiting(20, [1, 2, 3, 9]);
    hall.one_all(2);
    for id in [3, 9] {
        hall.accept_all(id);
    }
    hall.enter_all(3);
    assert_eq!(hall.stage(1), Some(Stage::AwaitsRoundOne));
    assert_eq!(hall.stage(2), Some(Stage::AwaitsRoundTwo));
    assert_eq!(hall.stage(9), Some(Stage::AwaitsEntry));
    assert_eq!(hall.stage(3), None);
    // Round one in the second wait, round two in the first, both in the third.
    hall.refused(11, hall.one(2));
    hall.refused(11, two(1, &hall.second[&2]));
    hall.refused(11, two(1, &hall.first[&1]));
    hall.refused(11, hall.one(9));
    hall.refused(11, hall.two(9));
    // An id that is decided, and one that nobody knows.
    for id in [3, 4, u32::MAX] {
        for joined in [&hall.first[&1].clone(), &hall.second[&2].clone(), &vec![]] {
            hall.refused(11, one(id, joined));
            hall.refused(11, two(id, joined));
        }
        hall.refused(11, Call::Enter { id });
        hall.refused(11, Call::Drop { id });
    }
    hall.refused(11, hall.one(3));
    hall.refused(11, hall.two(3));
    // The others go on.
    hall.two_all(2);
    hall.accept_all(1);
    for id in [2, 9, 1] {
        hall.enter_all(id);
    }
    assert_eq!(hall.tables[0].plain.decided(), [3, 2, 9, 1]);
}

/// Joined messages of another id than the named one: 12, also where that one waits as well.
#[test]
fn messages_of_another_id() {
    let mut hall = Hall::waiting(20, [1, 2, 3]);
    hall.refused(12, one(1, &hall.first[&2]));
    hall.refused(12, one(2, &hall.first[&1]));
    let (own, other) = (&hall.first[&1], &hall.first[&2]);
    let mixed = [&own[..ONE_BYTES], &other[ONE_BYTES..]].concat();
    hall.refused(12, one(1, &mixed));
    hall.refused(12, one(2, &mixed));
    hall.one_all(1);
    hall.one_all(2);
    hall.refused(12, two(1, &hall.second[&2]));
    hall.refused(12, two(2, &hall.second[&1]));
    // Another round's, too, and another id's of another round.
    hall.refused(12, two(1, &hall.first[&1]));
    hall.refused(12, two(1, &hall.first[&3]));
    hall.refused(12, one(3, &hall.second[&1]));
    hall.two_all(2);
    hall.two_all(1);
}

#[test]
fn no_close_while_one_waits() {
    let mut hall = Hall::waiting(20, 0..8);
    for id in 0..8 {
        hall.refused(11, CLOSE);
        hall.refused(11, Call::Close { room: 0 });
        if id % 2 == 0 {
            hall.one_all(id);
            hall.refused(11, CLOSE);
            hall.two_all(id);
            hall.refused(11, CLOSE);
            hall.enter_all(id);
        } else {
            hall.drop_all(id);
        }
    }
    hall.refused(14, Call::Close { room: 5 });
    hall.all(|_| CLOSE);
    assert!(hall.tables[0].plain.closed());
    hall.refused(11, CLOSE);
    hall.refused(11, share(0, 9));
    for id in [0, 1, 9] {
        hall.refused(11, Call::Enter { id });
        hall.refused(11, Call::Drop { id });
        hall.refused(11, one(id, &[]));
        hall.refused(11, two(id, &[]));
    }
}

/// A share goes into the first free record, and a freed record is 0 with its numbers.
#[test]
fn the_first_free_record() {
    let ids = |hall: &Hall| -> Vec<u32> {
        let slots = &hall.tables[0].lent.slots;
        let shown = |slot: &second::lent::Slot| if slot.stage == 0 { 99 } else { slot.id };
        slots.iter().map(shown).collect()
    };
    let mut hall = Hall::waiting(1024, 0..8);
    assert_eq!(ids(&hall), [0, 1, 2, 3, 4, 5, 6, 7]);
    hall.drop_all(5);
    hall.accept_all(2);
    assert_eq!(ids(&hall), [0, 1, 2, 3, 4, 99, 6, 7]);
    hall.enter_all(2);
    assert_eq!(ids(&hall), [0, 1, 99, 3, 4, 99, 6, 7]);
    for record in [2, 5] {
        let lent = &hall.tables[0].lent;
        assert_eq!(lent.slots[record], Default::default());
        assert!(lent.place(record).iter().all(|&number| number == 0));
    }
    hall.share_all(20);
    assert_eq!(ids(&hall), [0, 1, 20, 3, 4, 99, 6, 7]);
    hall.drop_all(0);
    hall.share_all(21);
    hall.share_all(22);
    assert_eq!(ids(&hall), [21, 1, 20, 3, 4, 22, 6, 7]);
    for id in [21, 1, 20, 3, 4, 22, 6, 7] {
        hall.one_all(id);
    }
    for id in [7, 6, 22, 4, 3, 20, 1, 21] {
        hall.two_all(id);
    }
    assert_eq!(ids(&hall), [21, 1, 20, 3, 4, 22, 6, 7]);
    for id in [3, 6, 21, 4, 7, 20, 1, 22] {
        hall.enter_all(id);
    }
    assert_eq!(ids(&hall), [99; 8]);
}
