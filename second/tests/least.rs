//! The least count Q: opening with it and closing from it on, in every form of the table.

mod common;

use common::lent_table::{Lent, FILL};
use common::pool::{End, Pool, CLOSE, SHEET};
use common::twins::Twins;
use common::*;
use second::gen::{Answer, Call, Server};
use second::lent::{self, Slot, SLOTS};
use second::{fast, join, open, recount, Joined};

/// The refusal of an opening, the same in every form.
fn refused(servers: u32, own: u32, sheet: &[u8], limit: u32, least: u32) -> Option<u32> {
    let plain = open(servers, own, sheet, limit, least).err();
    assert_eq!(fast::open(servers, own, sheet, limit, least).err(), plain);
    assert_eq!(Lent::open(servers, own, sheet, limit, least).err(), plain);
    plain
}

#[test]
fn from_one_to_n() {
    for limit in [1, 2, 3, 9, 255, 256, 257, 1023, 1024] {
        for least in [1, 2, limit / 2, limit - 1, limit] {
            let number = Some(2).filter(|_| least == 0 || least > limit);
            assert_eq!(refused(2, 0, &[17], limit, least), number);
        }
        assert_eq!(refused(2, 0, &[17], limit, 1), None);
        assert_eq!(refused(2, 0, &[17], limit, limit), None);
        for least in [0, limit + 1, limit + 2, 1025, u32::MAX] {
            assert_eq!(refused(2, 0, &[17], limit, least), Some(2));
        }
        // Never cut to fewer bits.
        for bits in [8, 16, 31] {
            let least = (1 << bits) + 1;
            let number = Some(2).filter(|_| least > limit);
            assert_eq!(refused(2, 0, &[17], limit, least), number);
        }
    }
}

/// S and own number, sheet, N, Q, 4, 14: one fault after the other goes away.
#[test]
fn order_of_opening() {
    let number = [19, 24];
    for (number, servers, own, sheet, limit, least) in [
        (2, 9, 0, &[20][..], 0, 0),
        (2, 2, 2, &[20], 0, 0),
        (1, 2, 1, &[20], 0, 0),
        (1, 2, 1, &[20], 5, 0),
        (2, 2, 1, &number, 0, 0),
        (2, 2, 1, &number, 0, 1),
        (2, 2, 1, &number, 1025, 1026),
        (2, 2, 1, &number, 1025, 1025),
        (2, 2, 1, &number, 129, 0),
        (2, 2, 1, &number, 129, 130),
        (4, 2, 1, &number, 129, 1),
        (4, 2, 1, &number, 129, 129),
        (2, 2, 1, &number, 128, 0),
        (2, 2, 1, &number, 128, 129),
        (14, 2, 1, &number, 128, 1),
        (14, 2, 1, &number, 128, 128),
    ] {
        let number = Some(number);
        let plain = number.filter(|&number| number != 14);
        assert_eq!(refused(servers, own, sheet, limit, least), plain);
        // No room at all, nor a byte too few.
        for room in [0, lent::length(sheet, limit).unwrap_or(1) - 1] {
            let (mut bytes, mut numbers) = (vec![FILL; room], [0; 6300]);
            let mut slots = [Slot::default(); SLOTS];
            let (b, s, n) = (&mut bytes, &mut slots, &mut numbers);
            let opened = lent::open(servers, own, sheet, limit, least, b, s, n);
            assert_eq!(opened.err(), number, "N = {limit}, Q = {least}");
        }
    }
}

/// 15 with fewer than Q entered, the closing message with Q and with more.
#[test]
fn from_q_on() {
    for (limit, least) in [(1, 1), (2, 1), (2, 2), (5, 3), (10, 9), (10, 10)] {
        let mut pool = Pool::open(3, limit, least);
        for entered in 0..limit {
            if entered < least {
                pool.refused(15, CLOSE);
            } else {
                pool.clone().closed();
            }
            pool.take(End::Entered);
        }
        assert_eq!(pool.closed().count, limit);
    }
}

/// 11, 15, 14.
#[test]
fn order_of_closing() {
    let rooms = [0, 1, 5, 17, 18, 1000].map(|room| Call::Close { room });
    let mut pool = Pool::open(2, 5, 2);
    pool.take(End::Entered);
    for close in &rooms {
        pool.refused(15, close.clone());
    }
    // 11 before 15: a return waits, for either round or for entry.
    let mut waiting = pool.clone();
    let id = waiting.share();
    for close in &rooms {
        waiting.refused(11, close.clone());
    }
    waiting.one(id);
    for close in &rooms {
        waiting.refused(11, close.clone());
    }
    waiting.accept(id);
    for close in &rooms {
        waiting.refused(11, close.clone());
    }
    waiting.drop(id);
    waiting.refused(15, CLOSE);
    // 15 goes away before 14.
    pool.take(End::Entered);
    for close in &rooms[..4] {
        pool.refused(14, close.clone());
    }
    pool.closed();
    for close in &rooms {
        pool.refused(11, close.clone());
    }
}

/// A lent table that is unsound or closed, with too few entered and no room: 11.
#[test]
fn unsound_before_too_few() {
    let table = Lent::open(2, 0, &SHEET, 5, 3).unwrap();
    for room in [0, 1000] {
        let close = Call::Close { room };
        assert_eq!(table.clone().call(&close), Answer::Refused(15));
        for (at, byte) in [
            (0, 2),
            (1, 1),
            (1, 2),
            (2, 9),
            (3, 2),
            (8, 1),
            (10, 0),
            (10, 6),
        ] {
            let mut other = table.clone();
            other.bytes[at] = byte;
            assert_eq!(other.call(&close), Answer::Refused(11), "{at} {byte}");
        }
    }
}

/// The ends that do not count.
const NOT_ENTERED: [End; 4] = [
    End::Rejected,
    End::Dropped,
    End::DroppedLate,
    End::DroppedAccepted,
];

#[test]
fn rejected_and_dropped_do_not_count() {
    let mut pool = Pool::open(2, 10, 2);
    for end in NOT_ENTERED {
        pool.take(end);
        pool.refused(15, CLOSE);
    }
    pool.take(End::Entered);
    for end in NOT_ENTERED {
        pool.refused(15, CLOSE);
        pool.take(end);
    }
    pool.refused(15, CLOSE);
    pool.take(End::Entered);
    assert_eq!(pool.closed().count, 2);
}

/// A pool that was refused 15 again and again goes on and closes as one that was not.
#[test]
fn a_15_changes_nothing() {
    let ends = [
        End::Entered,
        End::Rejected,
        End::Dropped,
        End::Entered,
        End::DroppedLate,
        End::DroppedAccepted,
        End::Entered,
    ];
    let [mut tried, mut quiet] = [(); 2].map(|()| Pool::open(3, 7, 3));
    for end in ends {
        for room in [0, 17, 1000] {
            tried.refused(15, Call::Close { room });
            assert!(tried == quiet);
        }
        tried.take(end);
        quiet.take(end);
    }
    assert!(tried == quiet);
    assert_eq!(tried.closed(), quiet.closed());
}

/// N decided and fewer than Q entered: every share is 13 and every close 15, for ever.
#[test]
fn pools_that_never_close() {
    for (least, ends) in [
        (1, [End::Rejected, End::Dropped, End::DroppedLate]),
        (1, [End::DroppedAccepted; 3]),
        (2, [End::Entered, End::Dropped, End::Rejected]),
        (3, [End::Entered, End::Rejected, End::Entered]),
        (3, [End::DroppedLate, End::Entered, End::Entered]),
        (3, [End::Entered, End::DroppedAccepted, End::Entered]),
    ] {
        let mut pool = Pool::open(2, 3, least);
        for end in ends {
            pool.take(end);
        }
        let before = pool.clone();
        for id in 0..20 {
            pool.refused(15, CLOSE);
            pool.refused(15, Call::Close { room: 0 });
            pool.refused(13, pool.share_call(0, id));
            pool.refused(11, Call::Enter { id });
            pool.refused(11, Call::Drop { id });
        }
        assert!(pool == before && !pool.tables[0].plain.closed());
    }
}

/// Servers opened alike have the same Q: all refuse or all close, and the sums come out. One with
/// another Q is opened differently, and closes at another time.
#[test]
fn opened_alike() {
    for servers in 2..=8 {
        let mut pool = Pool::open(servers, 4, 2);
        pool.take(End::Entered);
        pool.refused(15, CLOSE);
        pool.take(End::Entered);
        pool.closed();
    }
    let mut pool = Pool::open(2, 4, 2);
    pool.tables[1] = Twins::open(2, 1, &SHEET, 4, 1);
    let [two, one] = [2, 1].map(|least| Twins::open(2, 1, &SHEET, 4, least));
    assert!(two.plain != one.plain);
    let bytes = two.lent.bytes.iter().zip(&one.lent.bytes).enumerate();
    let differs = bytes.filter(|(_, (two, one))| two != one);
    assert_eq!(differs.map(|(at, _)| at).collect::<Vec<_>>(), [10]);
    pool.take(End::Entered);
    assert_eq!(pool.tables[0].call(&CLOSE), Answer::Refused(15));
    assert!(matches!(pool.tables[1].call(&CLOSE), Answer::Message(_)));
}

/// Joining and recount take counts below any Q, 0 too, and counts up to N.
#[test]
fn joining_knows_no_q() {
    let mut pool = Pool::open(2, 5, 4);
    (0..4).for_each(|_| pool.take(End::Entered));
    let messages = pool.closings();
    for (limit, number) in [(4, None), (5, None), (1024, None), (3, Some(12))] {
        assert_eq!(join(2, &SHEET, limit, &messages, ROOM).err(), number);
    }
    for count in [0, 1, 3, 4, 5, 6] {
        let joined = [0, 1]
            .map(|server| closing(server, count, &[1, 2, 3]))
            .concat();
        let answer = join(2, &SHEET, 5, &joined, ROOM);
        let text = recount(&[&[3, 0, 17, 18, 2, 2, 5, 0], &joined[..]].concat());
        if count > 5 {
            assert_eq!(answer, Err(12));
            assert_eq!(text, "refused 12\n");
            continue;
        }
        let totals = words(&[2, 4, 6]);
        assert_eq!(answer, Ok(Joined { count, totals }));
        assert_eq!(text, format!("accepted {count}\n1 0 2\n2 0 4\n2 1 6\n"));
    }
}

/// Every room short of the closing message is 14.
#[test]
fn closing_room() {
    let mut pool = Pool::open(2, 3, 1);
    pool.take(End::Entered);
    for room in 0..6 + 4 * 3 {
        pool.refused(14, Call::Close { room });
    }
    let message = pool.tables[1].call(&Call::Close { room: 18 });
    assert_eq!(message, Answer::Message(pool.closing_of(1)));
}
