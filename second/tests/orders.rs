//! Joined round messages in any order, in the plain and in the lent form.

mod common;

use common::rounds::*;
use common::twins::Twins;
use common::*;
use second::gen::{Answer, Call, Server};
use second::{close, join, Verdict};

#[test]
fn from_the_last_to_the_first() {
    for servers in [2, 3, 8] {
        for round in rounds(servers) {
            let joined = reversed(&round.joined);
            assert_eq!(usize::from(joined[5]), servers as usize - 1);
            round.as_in_server_order(&joined);
        }
    }
}

/// Every run of four messages out of the four servers' and one of number 4: the 24 runs with
/// each server once are taken, all others refused.
#[test]
fn every_run_of_four_messages() {
    for round in rounds(4) {
        let past = with(&round.joined[..round.length()], 5, &[4]);
        let messages = [&round.joined[..], &past].concat();
        let mut taken = 0;
        for run in 0..625 {
            let order = [run % 5, run / 5 % 5, run / 25 % 5, run / 125];
            let joined = ordered(&messages, &order);
            if (0..4).all(|server| order.contains(&server)) {
                round.as_in_server_order(&joined);
                taken += 1;
            } else {
                round.refused(&joined);
            }
        }
        assert_eq!(taken, 24);
    }
}

/// A message, or only its number, is another server's: that one twice, its own missing.
#[test]
fn a_server_twice() {
    for servers in [2, 3, 8] {
        for round in rounds(servers) {
            for joined in [round.joined.clone(), reversed(&round.joined)] {
                let length = round.length();
                let places = (0..joined.len()).step_by(length);
                let pairs = places
                    .clone()
                    .flat_map(|one| places.clone().map(move |two| (one, two)));
                for (from, to) in pairs.filter(|(from, to)| from != to) {
                    round.refused(&with(&joined, to, &joined[from..from + length]));
                    round.refused(&with(&joined, to + 5, &joined[from + 5..from + 6]));
                }
            }
        }
    }
}

/// A number from S on in the place of a server's, also one that ends in the same bits.
#[test]
fn a_server_missing() {
    for servers in 2..=8 {
        for round in rounds(servers) {
            for joined in [round.joined.clone(), reversed(&round.joined)] {
                for at in (5..joined.len()).step_by(round.length()) {
                    let same = [8, 16, 32, 64, 128, 248].map(|more| joined[at] + more);
                    for number in (servers as u8..=9).chain(same).chain([127, 255]) {
                        round.refused(&with(&joined, at, &[number]));
                    }
                }
            }
        }
    }
}

/// The own message counts where it stands, not the one in the place of the own number.
#[test]
fn own_message_altered() {
    for round in rounds(3) {
        for order in orders(3) {
            let joined = ordered(&round.joined, &order);
            for own in 0..3 {
                for wrong in altered(&joined, own) {
                    round.refuses(own, 12, &wrong);
                }
                // The own elements under another's number, wherever they stand.
                for other in (0..3).filter(|&other| other != own) {
                    round.refuses(own, 12, &exchanged(&joined, own, other));
                }
            }
        }
    }
}

/// Another's first two elements may be any, also in the place of the own number: the sums are
/// over what stands there.
#[test]
fn other_messages_altered() {
    for round in rounds(3) {
        for order in orders(3) {
            let joined = ordered(&round.joined, &order);
            for (own, other) in [(0, 1), (0, 2), (1, 0), (1, 2), (2, 0), (2, 1)] {
                let (good, _) = round.answer(own, &joined);
                for wrong in altered(&joined, other) {
                    let (answer, after) = round.answer(own, &wrong);
                    assert!(answer != good, "{own} of {order:?}");
                    if round.second {
                        assert_eq!(answer, Answer::Verdict(Verdict::Rejected));
                        continue;
                    }
                    assert!(matches!(answer, Answer::Message(_)));
                    let slot = after.lent.slots[0];
                    assert_eq!((slot.d, slot.e), sums(&wrong));
                }
                // Two others with each other's number: the same sums.
                let third = 3 - own - other;
                let wrong = exchanged(&joined, other, third);
                assert!(round.answer(own, &wrong) == round.answer(own, &joined));
            }
        }
    }
}

/// One message too few or too many, whichever it is, and bytes left over.
#[test]
fn wrong_lengths() {
    for servers in [2, 3, 8] {
        for round in rounds(servers) {
            for joined in [round.joined.clone(), reversed(&round.joined)] {
                let length = round.length();
                for at in (0..joined.len()).step_by(length) {
                    let message = &joined[at..at + length];
                    round.refused(&[&joined[..at], &joined[at + length..]].concat());
                    let more = with(message, 5, &[servers as u8]);
                    for more in [message, &more] {
                        round.refused(&[&joined[..at], more, &joined[at..]].concat());
                        round.refused(&[&joined[..], more].concat());
                    }
                }
                for wrong in [0, 1, length - 1, joined.len() - 1, joined.len() + 1] {
                    round.refused(&resized(&joined, wrong));
                }
            }
        }
    }
}

/// In another order 11 comes before 12, and 12 before 14, as in server order.
#[test]
fn order_of_refusals() {
    let [one, two] = rounds(3);
    let joined = reversed(&one.joined);
    let call = |id: u32, joined: &[u8], room: usize| Call::RoundOne {
        id,
        joined: joined.to_vec(),
        room,
    };
    let twice = with(&joined, 0, &joined[ONE_BYTES..2 * ONE_BYTES]);
    for own in 0..3 {
        let (mut first, mut second) = (one.tables[own].clone(), two.tables[own].clone());
        let refuses = |table: &mut Twins, number: u32, call: Call| {
            assert_eq!(table.call(&call), Answer::Refused(number), "{call}");
        };
        let short = TWO_BYTES - 1;
        refuses(&mut first, 14, call(ID, &joined, short));
        refuses(&mut first, 12, call(ID, &twice, short));
        refuses(&mut first, 11, call(ID + 1, &twice, short));
        refuses(&mut first, 11, two.call(&reversed(&two.joined)));
        refuses(&mut second, 11, call(ID, &joined, TWO_BYTES));
        refuses(&mut second, 12, two.call(&joined));
        assert!(matches!(
            first.call(&call(ID, &joined, TWO_BYTES)),
            Answer::Message(_)
        ));
    }
}

/// Each server has its own order; what comes out is what comes out in server order.
#[test]
fn each_server_its_own_order() {
    let orders = orders(3);
    let shares = honest(&SHEET, 3, ID);
    let mut sorted = open_all(3, &SHEET, 5);
    let (first, second, verdict) = judge(&mut sorted, &shares, 100, 3);
    assert_eq!(verdict, Verdict::Accepted);
    enter_all(&mut sorted, ID);
    let closings = sorted.iter_mut().map(|table| close(table, ROOM).unwrap());
    let closings: Vec<Vec<u8>> = closings.collect();
    for from in 0..6 {
        let order = |own: usize| &orders[(from + 2 * own) % 6];
        let [Round { mut tables, .. }, _] = rounds(3);
        let again = messages(&mut tables, |own| Call::RoundOne {
            id: ID,
            joined: ordered(&first, order(own)),
            room: TWO_BYTES,
        });
        assert_eq!(again, second);
        for (own, table) in tables.iter_mut().enumerate() {
            let joined = ordered(&second, order(own));
            let two = table.call(&Call::RoundTwo { id: ID, joined });
            assert_eq!(two, Answer::Verdict(Verdict::Accepted));
            assert_eq!(table.call(&Call::Enter { id: ID }), Answer::Entered);
            let close = table.call(&Call::Close { room: 1000 });
            assert_eq!(close, Answer::Message(closings[own].clone()));
        }
    }
}

/// Totals messages are joined in server order alone.
#[test]
fn totals_messages() {
    for servers in 2..=4u8 {
        let messages = (0..servers).map(|server| closing(server, 2, &[1, 2, 3, 4, 5]));
        let joined = messages.collect::<Vec<_>>().concat();
        let (count, sheet) = (servers.into(), &SHEET);
        for order in orders(count) {
            let run = picked(&joined, 26, &order);
            let answer = join(u32::from(servers), sheet, 5, &run, 20);
            let number = Some(12).filter(|_| !order.is_sorted());
            assert_eq!(answer.err(), number, "{order:?}");
        }
    }
}
