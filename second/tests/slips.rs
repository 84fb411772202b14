//! Servers that use different challenges: the return waits until it is dropped, in every form.

mod common;

use common::rounds::*;
use common::twins::Twins;
use common::*;
use second::field::P;
use second::gen::{Answer, Call, Server};
use second::{Stage, Verdict};

/// Round one at S servers with one pair, but for those that have another.
fn slips(servers: usize, others: &[(usize, (u64, u64))]) -> Round {
    let mut pairs = vec![PAIR; servers];
    for &(server, pair) in others {
        pairs[server] = pair;
    }
    first_round(&pairs)
}

/// All servers refuse unaltered messages 16, in server order and from the last to the first.
fn all_refuse(round: &Round) {
    for own in 0..round.tables.len() {
        round.refuses(own, 16, &round.joined);
        round.refuses(own, 16, &reversed(&round.joined));
    }
}

/// One server slips in r, in s or in both: every server refuses the unaltered messages.
#[test]
fn a_slip_at_one_server() {
    for servers in 2..=8 {
        for server in 0..servers {
            for other in [(101, 3), (100, 4), (101, 4), (99, 4), (P - 1, 0)] {
                all_refuse(&slips(servers, &[(server, other)]));
            }
        }
    }
}

/// Neighbours that are alike, others that are alike or not, and sums that are the same.
#[test]
fn alike_in_part() {
    let (other, third) = ((100, 4), (101, 3));
    let pairs = first_round(&[PAIR, PAIR, other, other]);
    for order in orders(4) {
        for own in 0..4 {
            pairs.refuses(own, 16, &ordered(&pairs.joined, &order));
        }
    }
    for round in [
        slips(4, &[(1, third), (3, third)]),
        slips(4, &[(1, other), (2, other)]),
        slips(4, &[(1, other), (2, third)]),
        slips(5, &[(4, other)]),
        slips(6, &[(2, other), (3, other), (4, third), (5, third)]),
        slips(8, &[(4, other), (5, other), (6, other), (7, other)]),
        slips(8, &[(1, other), (3, other), (5, other), (7, other)]),
        first_round(&[PAIR, (99, 4)]),
        first_round(&[(200, 100), (100, 200)]),
        first_round(&[(100, 3), (101, 3), (102, 3), (103, 3)]),
        first_round(&[(100, 0), (100, 1), (100, 2), (100, 3)]),
    ] {
        all_refuse(&round);
    }
}

/// "The return keeps waiting, and only dropping ends it": then its id is used.
#[test]
fn until_it_is_dropped() {
    let Round { tables, joined, .. } = first_round(&[PAIR, (100, 4)]);
    let one = Call::RoundOne {
        id: ID,
        joined,
        room: ROOM,
    };
    for (own, mut table) in tables.into_iter().enumerate() {
        let before = table.clone();
        for _ in 0..3 {
            assert_eq!(table.call(&one), Answer::Refused(16));
            assert_eq!(table, before);
        }
        assert_eq!(table.plain.waiting(), [(ID, Stage::AwaitsRoundOne)]);
        let refuses = |table: &mut Twins, number, call: &Call| {
            assert_eq!(table.call(call), Answer::Refused(number), "{call}");
        };
        let (id, joined, close) = (ID, Vec::new(), Call::Close { room: ROOM });
        refuses(&mut table, 11, &Call::RoundTwo { id, joined });
        refuses(&mut table, 11, &close);
        refuses(&mut table, 10, &share_call(2, own, ID, PAIR, ROOM));
        assert_eq!(table.call(&Call::Drop { id }), Answer::Dropped);
        assert_eq!(table.plain.decided(), [ID]);
        refuses(&mut table, 11, &one);
        refuses(&mut table, 11, &Call::Drop { id });
        refuses(&mut table, 10, &share_call(2, own, ID, PAIR, ROOM));
        refuses(&mut table, 15, &close);
        assert!(matches!(
            table.call(&share_call(2, own, ID + 1, PAIR, ROOM)),
            Answer::Message(_)
        ));
    }
}

/// After a 16 for messages that were altered on their way, the unaltered ones are taken, and the
/// return is accepted.
#[test]
fn unaltered_after_a_16() {
    for servers in 2..=8 {
        let [one, two] = rounds(servers);
        let mut tables = one.tables.clone();
        for (own, table) in tables.iter_mut().enumerate() {
            let other = (own + 1) % servers as usize;
            for wrong in altered_challenges(&one.joined, other) {
                assert_eq!(table.call(&one.call(&wrong)), Answer::Refused(16));
            }
        }
        let again = messages(&mut tables, |_| one.call(&one.joined));
        assert_eq!(again, two.joined);
        for table in &mut tables {
            let verdict = table.call(&two.call(&again));
            assert_eq!(verdict, Answer::Verdict(Verdict::Accepted));
        }
    }
}

/// Other returns go on beside one that is refused 16, each with its own pair.
#[test]
fn beside_others() {
    let mut tables = Twins::open_all(2, &SHEET, 8, 1);
    let pair = |own: usize, id: u32| match (own, id) {
        (1, 3) => (100, 9),
        (1, 5) => (200, 5),
        _ => (100 + u64::from(id), id.into()),
    };
    let first: Vec<Vec<u8>> = (0..8)
        .map(|id| {
            messages(&mut tables, |own| {
                share_call(2, own, id, pair(own, id), ONE_BYTES)
            })
        })
        .collect();
    for (id, joined) in (0..8).zip(first) {
        let room = TWO_BYTES;
        let one = Call::RoundOne { id, joined, room };
        if [3, 5].contains(&id) {
            for table in &mut tables {
                assert_eq!(table.call(&one), Answer::Refused(16));
                assert_eq!(table.call(&Call::Drop { id }), Answer::Dropped);
            }
            continue;
        }
        let joined = messages(&mut tables, |_| one.clone());
        let two = Call::RoundTwo { id, joined };
        for table in &mut tables {
            assert_eq!(table.call(&two), Answer::Verdict(Verdict::Accepted));
            assert_eq!(table.call(&Call::Enter { id }), Answer::Entered);
        }
    }
    for table in &tables {
        assert_eq!(table.plain.decided(), [0, 1, 2, 3, 4, 5, 6, 7]);
        assert_eq!(table.plain.entered(), 6);
    }
}
