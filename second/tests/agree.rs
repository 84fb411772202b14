//! The fast form against the plain form.

mod common;

use common::*;
use second::gen::{self, Answer, Call, Case, Origin, Return, Rng, Script, Server};
use second::{fast, table, Sheet};

#[test]
fn cases_agree() {
    let mut rng = Rng::new(21);
    for number in 0..3000 {
        let case = Case::random(&mut rng);
        assert_eq!(case.fast(), case.plain(), "case {number}: {case:?}");
    }
}

#[test]
fn makes_agree() {
    let mut rng = Rng::new(22);
    for _ in 0..400 {
        let case = Case::random_make(&mut rng);
        assert_eq!(case.fast(), case.plain());
    }
}

#[test]
fn scripts_agree() {
    for seed in 1000..1200 {
        let script = Script::random(seed);
        let Script {
            servers,
            ref sheet,
            limit,
            least,
            ..
        } = script;
        let plain = |own| table::open(servers, own, sheet, limit, least).unwrap();
        let fast = |own| fast::open(servers, own, sheet, limit, least).unwrap();
        assert_eq!(script.play(plain), Ok(()), "plain, seed {seed}");
        assert_eq!(script.play(fast), Ok(()), "fast, seed {seed}");
        for exchange in script.openings.iter().chain(&script.joins) {
            assert_eq!(exchange.case.fast(), exchange.answer);
        }
    }
}

#[test]
fn tables_agree_after_every_call() {
    for seed in 2000..2060 {
        let script = Script::random(seed);
        let Script {
            servers,
            ref sheet,
            limit,
            least,
            ..
        } = script;
        let open_plain = |own| table::open(servers, own, sheet, limit, least);
        let open_fast = |own| fast::open(servers, own, sheet, limit, least);
        let mut plain: Vec<_> = (0..servers).flat_map(open_plain).collect();
        let mut quick: Vec<_> = (0..servers).flat_map(open_fast).collect();
        for step in &script.steps {
            let server = step.server as usize;
            let before = plain[server].clone();
            let answer = plain[server].call(&step.call);
            assert_eq!(answer, step.answer);
            assert_eq!(quick[server].call(&step.call), answer);
            // Equal in all that they know: findings, published entries, totals, ids.
            assert!(quick[server] == plain[server]);
            // A refused call changes nothing.
            if let Answer::Refused(_) = answer {
                assert_eq!(plain[server], before);
            }
        }
    }
}

/// Full-size sheets of every kind, with r at and around the points of h.
#[test]
fn full_sheets_agree() {
    let sheets: [Vec<u8>; 11] = [
        vec![17; 256],
        vec![18, 64, 18, 64, 18, 64, 18, 64],
        [18, 2].repeat(128),
        [[19, 24].repeat(10), vec![19, 5]].concat(),
        [19, 1].repeat(128),
        [17, 18, 3, 19, 7].repeat(21),
        longest_sheet(),
        largest_sheet(),
        [21, 12].repeat(9),
        [21, 1].repeat(42),
        [17, 21, 3, 18, 4, 21, 5, 19, 6, 20, 9, 0, 0, 0].repeat(4),
    ];
    let mut rng = Rng::new(23);
    for bytes in &sheets {
        let sheet = Sheet::read(bytes).unwrap();
        let values = gen::values(&mut rng, &sheet);
        let count = sheet.share_elements() + 4;
        let random = gen::elements(&mut rng, count);
        let made = second::make(bytes, 2, 9, &values, &random, ROOM);
        assert_eq!(fast::make(bytes, 2, 9, &values, &random, ROOM), made);

        let given = Return::random(&mut rng, &sheet, 2, 9, Origin::Altered);
        let gates = sheet.multiplications() as u64;
        let p = second::field::P;
        for r in [gates + 1, 2 * gates - 1, 2 * gates, 2 * gates + 1, p - 1] {
            for own in 0..2u32 {
                let mut plain = table::open(2, own, bytes, 1, 1).unwrap();
                let mut quick = fast::open(2, own, bytes, 1, 1).unwrap();
                let call = Call::Share {
                    message: given.shares[own as usize].clone(),
                    r,
                    s: given.s,
                    room: ONE_BYTES,
                };
                assert_eq!(quick.call(&call), plain.call(&call));
                assert!(quick == plain);
            }
        }
    }
}
