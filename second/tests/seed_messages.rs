//! Seed messages: what tables take, alone and beside long messages.

mod common;

use common::lent_table::Lent;
use common::*;
use second::field::{self, P};
use second::gen::{self, added_up, Answer, Call, Origin, Return, Rng, Script, Server};
use second::{close, fast, join, make_seeded, open, round_one, share, Sheet, Verdict};

const SHEET: [u8; 7] = [17, 18, 3, 19, 4, 21, 2];

/// A seed is taken as the long message of its elements: the same message and the same table.
#[test]
fn seeds_taken_as_elements() {
    let mut rng = Rng::new(93);
    let mut sheets = vec![
        SHEET.to_vec(),
        vec![17; 256],
        largest_sheet(),
        longest_sheet(),
    ];
    sheets.extend((0..150).map(|_| gen::sheet(&mut rng, 60)));
    for bytes in &sheets {
        let sheet = Sheet::read(bytes).unwrap();
        let (seed, id) = (rng.seed(), rng.next_u64() as u32);
        let own = rng.between(1, 7) as u32;
        let (r, s) = gen::pair(&mut rng, sheet.multiplications());
        let call = |message: Vec<u8>| Call::Share {
            message,
            r,
            s,
            room: ONE_BYTES,
        };
        let short = call(seed_message(id, own as u8, &seed));
        let long = call(expanded(&sheet, id, own as u8, &seed));
        let open_plain = || open(8, own, bytes, 1, 1).unwrap();
        let open_fast = || fast::open(8, own, bytes, 1, 1).unwrap();
        let open_lent = || Lent::open(8, own, bytes, 1, 1).unwrap();
        let (mut plain, mut other) = (open_plain(), open_plain());
        let answer = other.call(&long);
        assert!(matches!(answer, Answer::Message(_)));
        assert_eq!(plain.call(&short), answer);
        assert!(plain == other);
        let mut quick = open_fast();
        assert_eq!(quick.call(&short), answer);
        assert!(quick == other);
        let (mut lent, mut other) = (open_lent(), open_lent());
        assert_eq!(lent.call(&short), answer);
        assert_eq!(other.call(&long), answer);
        assert!(lent == other);
    }
}

/// Seed messages at fault, in the plain and in the lent form.
#[test]
fn seed_messages_refused() {
    let seed = [11; 32];
    let good = seed_message(5, 1, &seed);
    let refused = |own: u32, message: Vec<u8>, number: u32| {
        let call = Call::Share {
            message,
            r: 100,
            s: 3,
            room: ONE_BYTES,
        };
        let mut plain = open(3, own, &SHEET, 5, 1).unwrap();
        let mut lent = Lent::open(3, own, &SHEET, 5, 1).unwrap();
        assert_eq!(plain.call(&call), Answer::Refused(number), "{call}");
        assert_eq!(lent.call(&call), Answer::Refused(number), "{call}");
    };
    for length in (0..200).filter(|&length| length != 38) {
        refused(1, resized(&good, length), 7);
    }
    let long = Sheet::read(&SHEET).unwrap().share_length();
    refused(1, resized(&good, long), 7);
    for byte in (0..=255).filter(|&byte| byte != 38) {
        refused(1, with(&good, 0, &[byte]), 7);
    }
    for byte in (0..=255).filter(|&byte| byte != 1) {
        refused(1, with(&good, 5, &[byte]), 7);
    }
    // For server 0, whatever the server byte is.
    for byte in 0..=255 {
        refused(0, with(&good, 5, &[byte]), 7);
    }
    // A seed of which every word is p or more is none of refusal 8.
    let mut table = open(3, 1, &SHEET, 5, 1).unwrap();
    let full = seed_message(5, 1, &[255; 32]);
    assert!(share(&mut table, &full, 100, 3, ONE_BYTES).is_ok());
}

/// A long message of a sheet with nine elements has 42 bytes; none has 38, and lengths are by kind.
#[test]
fn lengths_by_kind() {
    let mut table = open(2, 1, &[17], 5, 1).unwrap();
    let long = share_message(1, 1, &[0; 9]);
    assert_eq!(long.len(), 42);
    refused(&mut table, 7, |t| {
        share(t, &with(&long, 0, &[38]), 9, 0, ONE_BYTES)
    });
    let short = seed_message(1, 1, &[0; 32]);
    refused(&mut table, 7, |t| {
        share(t, &with(&short, 0, &[33]), 9, 0, ONE_BYTES)
    });
    assert!(share(&mut table, &short, 9, 0, ONE_BYTES).is_ok());
}

/// The order of a share's refusals with seed messages: 11, 13, 7, 10, 9, 14.
#[test]
fn orders() {
    let mut table = open(3, 1, &SHEET, 2, 1).unwrap();
    let seed = |id| seed_message(id, 1, &[3; 32]);
    share(&mut table, &seed(1), 100, 0, ONE_BYTES).unwrap();
    let other = with(&seed(1), 5, &[2]);
    refused(&mut table, 7, |t| share(t, &other, 0, P, 0));
    refused(&mut table, 10, |t| share(t, &seed(1), 0, P, 0));
    refused(&mut table, 9, |t| share(t, &seed(2), 0, P, 0));
    refused(&mut table, 14, |t| share(t, &seed(2), 100, 0, 21));
    share(&mut table, &seed(2), 100, 0, ONE_BYTES).unwrap();
    refused(&mut table, 13, |t| share(t, &other, 0, P, 0));
}

/// Honest returns, each server with a seed or a long message, are accepted and add up.
#[test]
fn mixed_pools() {
    let mut rng = Rng::new(94);
    let mut kinds = [0; 2];
    for number in 0..60 {
        let bytes = gen::sheet(&mut rng, 20);
        let sheet = Sheet::read(&bytes).unwrap();
        let (servers, limit) = (2 + number % 7, gen::largest_limit(&sheet).min(4));
        let mut tables = open_all(servers, &bytes, limit);
        let mut sums = vec![0; sheet.entries()];
        for id in 0..limit {
            let given = Return::mixed(&mut rng, &sheet, servers, id, Origin::Honest);
            assert_eq!(given.shares[0][0], 33);
            for share in &given.shares[1..] {
                kinds[usize::from(share[0] == 38)] += 1;
            }
            let verdict = take(&mut tables, &given.shares, given.r, given.s);
            assert_eq!(verdict, Verdict::Accepted);
            let whole = added_up(&sheet, &given.shares).unwrap();
            for (sum, entry) in sums.iter_mut().zip(whole) {
                *sum = field::add(*sum, entry);
            }
        }
        let closings = tables.iter_mut().map(|t| close(t, ROOM).unwrap());
        let closings = closings.collect::<Vec<_>>().concat();
        let published = sheet.published_entries().map(|entry| sums[entry] as u32);
        let totals = words(&published.collect::<Vec<_>>());
        let joined = join(servers, &bytes, limit, &closings, ROOM);
        assert_eq!(joined.as_ref().map(|joined| joined.count), Ok(limit));
        assert_eq!(joined.map(|joined| joined.totals), Ok(totals));
    }
    assert!(kinds[0] > 100 && kinds[1] > 100, "{kinds:?}");
}

/// Another seed than the one that was made with is rejected.
#[test]
fn another_seed_is_rejected() {
    let mut rng = Rng::new(95);
    let sheet = Sheet::read(&SHEET).unwrap();
    let mut tables = open_all(3, &SHEET, 100);
    for id in 0..50 {
        let values = gen::values(&mut rng, &sheet);
        let free = gen::elements(&mut rng, 4);
        let seeds = [rng.seed(), rng.seed()].concat();
        let made = make_seeded(&SHEET, 3, id, &values, &free, &seeds, ROOM).unwrap();
        let (first, rest) = made.split_at(sheet.share_length());
        let mut shares = vec![first.to_vec()];
        shares.extend(rest.chunks(38).map(<[u8]>::to_vec));
        let changed = id % 2 == 1;
        if changed {
            let (server, at) = (1 + rng.index(2), 6 + rng.index(32));
            shares[server][at] ^= 1 << rng.below(8);
        }
        let (_, _, verdict) = judge(&mut tables, &shares, 1_000_003 + u64::from(id), 77);
        assert_eq!(verdict == Verdict::Rejected, changed, "id {id}");
        if !changed {
            enter_all(&mut tables, id);
        }
    }
}

/// Scripts have both kinds of messages, and tables take both.
#[test]
fn scripts_have_both_kinds() {
    let (mut taken, mut refused) = ([0; 2], [0; 2]);
    for seed in 0..120 {
        for step in Script::random(seed).steps {
            let Call::Share { message, .. } = &step.call else {
                continue;
            };
            let kind = usize::from(message.first() == Some(&38));
            match step.answer {
                Answer::Message(_) => taken[kind] += 1,
                _ => refused[kind] += 1,
            }
        }
    }
    assert!(taken.iter().all(|&count| count > 500), "{taken:?}");
    assert!(refused.iter().all(|&count| count > 100), "{refused:?}");
}

/// Rounds go on from a seed's share as from any other.
#[test]
fn round_one_after_a_seed() {
    let mut table = open(2, 1, &SHEET, 5, 1).unwrap();
    let own = share(&mut table, &seed_message(3, 1, &[8; 32]), 100, 3, ONE_BYTES).unwrap();
    let other = with(&own, 5, &[0]);
    let joined = [&other[..], &own].concat();
    assert!(round_one(&mut table, 3, &joined, TWO_BYTES).is_ok());
}
