//! The elements of seeds, and making from seeds.

mod common;

use common::*;
use second::chacha::block;
use second::field::{self, P};
use second::gen::{self, elements_of, Case, CaseAnswer, Rng, Seeded};
use second::seeds::expand;
use second::{fast, make, make_seeded, Sheet};

/// RFC 8439, appendix A.1, rows 1 and 2: the key stream of zeros, with the top bits cleared.
#[test]
fn elements_by_hand() {
    let elements = expand(&[0; 32], 0, 20);
    let first = [
        0x2de0_b876,
        0x103d_f1a0,
        0x656a_5d40,
        0x28bd_8653,
        0x3819_d2bd,
    ];
    assert_eq!(elements[..5], first);
    assert_eq!(elements[15..18], [0x0665_eeb2, 0x3ee7_079f, 0x7a38_5155]);
    // Shorter runs are the starts of longer ones.
    for count in 0..20 {
        assert_eq!(expand(&[0; 32], 0, count), elements[..count]);
    }
    assert!(expand(&[0; 32], 1, 20) != elements);
}

/// Streams under id 7 with a word 0x7fffffff, and with a word 0xffffffff: both give 0.
#[test]
fn words_of_ones() {
    let sheet = Sheet::read(&[17; 256]).unwrap();
    for (start, at, word) in [(808_328u32, 62, 0x7FFF_FFFF), (6_224_802, 469, u32::MAX)] {
        let mut seed = [0; 32];
        seed[..4].copy_from_slice(&start.to_le_bytes());
        let nonce = [7, 0, 0, 0, 0, 0, 0, 0, 0, 0, 0, 0];
        let bytes = block(&seed, at as u32 / 16, &nonce);
        assert_eq!(bytes[4 * (at % 16)..][..4], u32::to_le_bytes(word));
        assert_eq!(expand(&seed, 7, 774)[at], 0);
        // In the fast form a table notes the same as from the long message of the elements.
        let messages = [seed_message(7, 1, &seed), expanded(&sheet, 7, 1, &seed)];
        let [short, long] = messages.map(|message| {
            let mut table = fast::open(2, 1, &[17; 256], 1, 1).unwrap();
            let answer = fast::share(&mut table, &message, 1000, 3, ONE_BYTES).unwrap();
            (answer, table)
        });
        assert!(short == long);
    }
}

/// Every element is below p, and the id is all of the nonce: each of its bytes matters.
#[test]
fn ids_and_seeds_matter() {
    let mut rng = Rng::new(91);
    for _ in 0..200 {
        let (seed, id) = (rng.seed(), rng.next_u64() as u32);
        let elements = expand(&seed, id, 774);
        assert!(elements.iter().all(|&element| element < P));
        for bit in 0..32 {
            assert!(expand(&seed, id ^ 1 << bit, 4) != elements[..4]);
        }
        let mut other = seed;
        other[rng.index(32)] ^= 1 << rng.below(8);
        assert!(expand(&other, id, 4) != elements[..4]);
    }
}

/// Making from seeds is making from the elements that they stand for.
#[test]
fn made_as_from_elements() {
    let mut rng = Rng::new(92);
    for number in 0..200 {
        let bytes = gen::sheet(&mut rng, 40);
        let sheet = Sheet::read(&bytes).unwrap();
        let (servers, id) = (2 + number % 7, rng.next_u64() as u32);
        let values = gen::values(&mut rng, &sheet);
        let free = gen::elements(&mut rng, 4);
        let seeds: Vec<[u8; 32]> = (1..servers).map(|_| rng.seed()).collect();
        let all = seeds.concat();
        let made = make_seeded(&bytes, servers, id, &values, &free, &all, ROOM).unwrap();
        assert_eq!(made.len(), sheet.share_length() + 38 * seeds.len());
        assert_eq!(
            fast::make_seeded(&bytes, servers, id, &values, &free, &all, ROOM),
            Ok(made.clone())
        );

        let mut random = free.clone();
        for seed in &seeds {
            let elements = expand(seed, id, sheet.share_elements());
            elements
                .iter()
                .for_each(|&element| field::put(&mut random, element));
        }
        let long = make(&bytes, servers, id, &values, &random, ROOM).unwrap();
        let (first, short) = made.split_at(sheet.share_length());
        assert_eq!(first, &long[..sheet.share_length()]);
        for (server, (message, seed)) in (1u8..).zip(short.chunks(38).zip(&seeds)) {
            assert_eq!(message, seed_message(id, server, seed));
            let place = usize::from(server) * sheet.share_length();
            assert_eq!(
                long[place..][..sheet.share_length()],
                expanded(&sheet, id, server, seed)
            );
        }
    }
}

/// A refusal, and a change of arguments that leads to it.
type Fault = (u32, fn(&mut Seeded));

/// Arguments of making from seeds at three servers that are all good.
fn good() -> Seeded {
    Seeded {
        sheet: vec![17, 19, 3],
        servers: 3,
        id: 7,
        values: words(&[1, 5]),
        random: words(&[1, 2, 3, 4]),
        seeds: vec![5; 64],
        room: 6 + 4 * (5 + 2 * 4 + 6) + 2 * 38,
    }
}

/// Both forms refuse the changed arguments with this number.
fn made_refused(number: u32, change: impl Fn(&mut Seeded)) {
    let mut seeded = good();
    change(&mut seeded);
    let case = Case::MakeSeeded(seeded);
    assert_eq!(case.plain(), CaseAnswer::Refused(number), "{case:?}");
    assert_eq!(case.fast(), CaseAnswer::Refused(number), "{case:?}");
}

/// Each refusal of making from seeds alone.
#[test]
fn making_refused() {
    let CaseAnswer::Bytes(made) = Case::MakeSeeded(good()).plain() else {
        panic!("refused");
    };
    assert_eq!(made.len(), good().room);
    made_refused(14, |x| x.room -= 1);
    for count in (0..300).filter(|&count| count != 64) {
        made_refused(6, |x| x.seeds.resize(count, 5));
    }
    for servers in (2..=8).filter(|&servers| servers != 3) {
        made_refused(6, |x| x.servers = servers);
    }
    for count in (0..40).filter(|&count| count != 16) {
        made_refused(6, |x| x.random.resize(count, 0));
    }
    for large in [P32, P32 + 1, u32::MAX] {
        for at in 0..4 {
            made_refused(6, |x| {
                x.random = with(&x.random, 4 * at, &large.to_le_bytes())
            });
        }
    }
}

/// The order of refusals of making from seeds: sheet, S, 5, 6, 14.
#[test]
fn making_orders() {
    let faults: [Fault; 6] = [
        (1, |x| x.sheet = vec![17, 19, 3, 99]),
        (2, |x| x.servers = 258),
        (5, |x| x.values = words(&[2, 5])),
        (6, |x| x.seeds.truncate(32)),
        (6, |x| x.random[3] = 0xFF),
        (14, |x| x.room = 0),
    ];
    for (place, (number, first)) in faults.iter().enumerate() {
        for (_, other) in &faults[place..] {
            made_refused(*number, |x| {
                other(x);
                first(x);
            });
        }
    }
    made_refused(2, |x| x.sheet.clear());
}

/// The same seed at two servers of a return gives both the same share.
#[test]
fn one_seed_twice() {
    let sheet = Sheet::read(&[17, 19, 4]).unwrap();
    let [one, two] =
        [1, 2].map(|own| elements_of(&sheet, &seed_message(9, own, &[4; 32])).unwrap());
    assert_eq!(one, two);
}

#[test]
fn makes_agree() {
    let mut rng = Rng::new(96);
    let mut done = 0;
    for _ in 0..600 {
        let case = Case::random_make_seeded(&mut rng);
        assert_eq!(case.fast(), case.plain(), "{case:?}");
        done += u32::from(matches!(case.plain(), CaseAnswer::Bytes(_)));
    }
    assert!(done > 200, "{done}");
}
