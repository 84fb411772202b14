//! What round messages hold, and their lengths.

mod common;

use common::rounds::*;
use common::twins::Twins;
use common::*;
use second::field::P;
use second::gen::{Answer, Call, Server};

/// Round one messages have 22 bytes, round two messages 14: all else is 12.
#[test]
fn lengths_of_messages() {
    for servers in [2, 3, 8] {
        let [one, two] = rounds(servers);
        assert_eq!(one.joined.len(), 22 * servers as usize);
        assert_eq!(two.joined.len(), 14 * servers as usize);
        let shorter = |message: &[u8]| message[..14].to_vec();
        let short: Vec<u8> = each_message(&one.joined).flat_map(shorter).collect();
        one.refused(&short);
        let longer = |message: &[u8]| [message, &[0; 8]].concat();
        let long: Vec<u8> = each_message(&two.joined).flat_map(longer).collect();
        two.refused(&long);
        // One short among others, and as many bytes as two messages need.
        for at in (0..one.joined.len()).step_by(22) {
            one.refused(&[&one.joined[..at + 14], &one.joined[at + 22..]].concat());
        }
        one.refused(&resized(&one.joined, 14 * servers as usize));
        two.refused(&resized(&two.joined, 22 * servers as usize));
        one.refused(&resized(&two.joined, 22 * servers as usize));
    }
}

/// A share needs room for 22 bytes, round one for 14; each writes as many.
#[test]
fn rooms_of_messages() {
    let mut tables = Twins::open_all(2, &SHEET, 5, 1);
    for room in [0, 1, 13, 14, 20, 21] {
        for (own, table) in tables.iter_mut().enumerate() {
            let answer = table.call(&share_call(2, own, 7, PAIR, room));
            assert_eq!(answer, Answer::Refused(14), "room {room}");
        }
    }
    let joined = messages(&mut tables, |own| share_call(2, own, 7, PAIR, 22 + own));
    assert_eq!(joined.len(), 44);
    let one = |room| Call::RoundOne {
        id: 7,
        joined: joined.clone(),
        room,
    };
    for room in [0, 1, 13] {
        for table in &mut tables {
            assert_eq!(table.call(&one(room)), Answer::Refused(14), "room {room}");
        }
    }
    assert_eq!(messages(&mut tables, |own| one(14 + own)).len(), 28);
}

/// r and s stand after e, r first, as the share was taken with them.
#[test]
fn r_and_s_in_the_message() {
    let gates = 8;
    for (r, s) in [(gates + 1, 0), (P - 1, P - 1), (0x0102_0304, 0x0506_0708)] {
        let round = first_round(&[(r, s), (r, s)]);
        for (own, message) in each_message(&round.joined).enumerate() {
            assert_eq!(message[..6], [34, 1, 2, 3, 4, own as u8]);
            assert_eq!(message[14..18], (r as u32).to_le_bytes());
            assert_eq!(message[18..], (s as u32).to_le_bytes());
        }
        let (answer, _) = round.answer(0, &round.joined);
        assert!(matches!(answer, Answer::Message(_)));
    }
}
