//! The lent form against the plain form.

mod common;

use common::lent_table::{Lent, FILL, FILL_NUMBER, FILL_SLOT};
use common::*;
use second::field::P;
use second::gen::{Answer, Call, Case, Origin, Return, Rng, Script, Server};
use second::lent::{self, Slot};
use second::{table, Sheet};

#[test]
fn scripts_agree() {
    for seed in 3000..3400 {
        let script = Script::random(seed);
        let (servers, limit, least) = (script.servers, script.limit, script.least);
        let open = |own| Lent::open(servers, own, &script.sheet, limit, least).unwrap();
        assert_eq!(script.play(open), Ok(()), "seed {seed}");
    }
}

#[test]
fn openings_agree() {
    let mut rng = Rng::new(41);
    for _ in 0..3000 {
        let case = Case::random_open(&mut rng);
        let Case::Open {
            servers,
            own,
            sheet,
            limit,
            least,
        } = &case
        else {
            panic!("{case:?}");
        };
        let plain = table::open(*servers, *own, sheet, *limit, *least);
        let lent = Lent::open(*servers, *own, sheet, *limit, *least);
        assert_eq!(lent.as_ref().err(), plain.as_ref().err(), "{case:?}");
        if let Ok(lent) = lent {
            openings_in_any_room(&lent, |b, slots, n| {
                lent::open(*servers, *own, sheet, *limit, *least, b, slots, n)
            });
        }
    }
}

/// Opens a table in exactly enough room, and in too little of each part, which is refused 14
/// and writes nothing.
fn openings_in_any_room(
    opened: &Lent,
    open: impl Fn(&mut [u8], &mut [Slot], &mut [u32]) -> Result<usize, u32>,
) {
    let Lent { length, run, .. } = *opened;
    let short = |needed: usize| [0, 1, 13, needed / 2, needed - 1];
    let mut rooms = vec![(length, 8, run)];
    rooms.extend(short(length).map(|length| (length, 8, run)));
    rooms.extend(short(run).map(|run| (length, 8, run)));
    rooms.extend([0, 1, 7, 9, 16].map(|slots| (length, slots, run)));
    rooms.push((length - 1, 7, run - 1));
    for room in rooms {
        let mut bytes = vec![FILL; room.0];
        let mut slots = vec![FILL_SLOT; room.1];
        let mut numbers = vec![FILL_NUMBER; room.2];
        let answer = open(&mut bytes, &mut slots, &mut numbers);
        if room == (length, 8, run) {
            assert_eq!(answer, Ok(length));
            assert_eq!(bytes, opened.bytes[..length]);
            assert_eq!(slots, opened.slots);
            assert_eq!(numbers, opened.numbers[..run]);
        } else {
            assert_eq!(answer, Err(14), "{room:?}");
            assert!(bytes.iter().all(|&byte| byte == FILL));
            assert!(slots.iter().all(|&slot| slot == FILL_SLOT));
            assert!(numbers.iter().all(|&number| number == FILL_NUMBER));
        }
    }
}

/// Sheets of every kind and of many sizes, with r at and around the points of h.
#[test]
fn shares_agree() {
    let mut sheets: Vec<Vec<u8>> = vec![
        vec![17; 256],
        [18, 64].repeat(4),
        [18, 2].repeat(128),
        [19, 24].repeat(10).into_iter().chain([19, 5]).collect(),
        [19, 1].repeat(128),
        [17, 18, 3, 19, 7].repeat(21),
        longest_sheet(),
        largest_sheet(),
        [21, 12].repeat(9),
        [21, 1].repeat(42),
        [17, 21, 3, 18, 4, 21, 5, 19, 6, 20, 9, 0, 0, 0].repeat(4),
    ];
    sheets.extend((1..70).map(|count| vec![17; count]));
    sheets.extend((2..20).map(|options| vec![18, options, 17]));
    sheets.extend((1..24).map(|bits| vec![17, 19, bits]));
    sheets.extend((1..=12).map(|bits| vec![18, 2, 21, bits, 17]));
    sheets.extend(tops().map(|top| [vec![18, 2], top_column(top), vec![17]].concat()));
    let mut rng = Rng::new(42);
    for bytes in &sheets {
        let sheet = Sheet::read(bytes).unwrap();
        let given = Return::random(&mut rng, &sheet, 2, 9, Origin::Altered);
        let gates = sheet.multiplications() as u64;
        for r in [
            gates + 1,
            2 * gates,
            2 * gates + 1,
            rng.between(gates + 1, P - 1),
            P - 1,
        ] {
            share_and_round_one(bytes, &given, r);
        }
    }
}

/// Takes a return through share and round one at two servers, in both forms.
fn share_and_round_one(bytes: &[u8], given: &Return, r: u64) {
    let mut plains = open_all(2, bytes, 1);
    let lents = (0..2).map(|own| Lent::open(2, own, bytes, 1, 1).unwrap());
    let mut lents: Vec<Lent> = lents.collect();
    let mut joined = Vec::new();
    for own in 0..2 {
        let call = Call::Share {
            message: given.shares[own].clone(),
            r,
            s: given.s,
            room: ONE_BYTES,
        };
        let answer = plains[own].call(&call);
        assert_eq!(lents[own].call(&call), answer, "{bytes:?}");
        if let Answer::Message(message) = answer {
            joined.extend(message);
        }
    }
    let call = Call::RoundOne {
        id: given.id,
        joined,
        room: TWO_BYTES,
    };
    for (lent, plain) in lents.iter_mut().zip(&mut plains) {
        assert_eq!(lent.call(&call), plain.call(&call), "{bytes:?}");
    }
}

#[test]
fn a_thousand_ids() {
    let (sheet, elements) = ([17], [1, 2, 3, 4, 5, 6, 7, 8, 9]);
    let mut table = Lent::open(2, 0, &sheet, 1024, 1).unwrap();
    let share = |id: u32| Call::Share {
        message: share_message(id, 0, &elements),
        r: 100,
        s: 3,
        room: ONE_BYTES,
    };
    for id in 0..1024u32 {
        if id > 0 {
            for decided in [0, id / 2, id - 1] {
                assert_eq!(table.call(&share(decided)), Answer::Refused(10));
            }
        }
        assert!(matches!(table.call(&share(id)), Answer::Message(_)));
        assert_eq!(table.call(&Call::Drop { id }), Answer::Dropped);
    }
    assert_eq!(table.call(&share(1024)), Answer::Refused(13));
    assert_eq!(table.call(&share(3)), Answer::Refused(13));
    assert_eq!(table.call(&Call::Close { room: 10 }), Answer::Refused(15));
}
