//! Shares from seeds: messages and elements told by hand, messages at fault, and the key stream by another hand.

use second::field::P;
use second::gen::{self, elements_of, Rng};
use second::{fast, Sheet};

use crate::calls::{plain, Call, Function};
use crate::fixture::{Fixture, NEXT};
use crate::layout::{read, Parts};
use crate::libcrypto::Stream;
use crate::pools::Pool;
use crate::reference::ONE_BYTES;
use crate::suite::{Suite, Verdict};
use crate::tops::{largest_sheet, longest_sheet};

/// A seed message.
pub fn seed_message(id: u32, server: u8, seed: &[u8]) -> Vec<u8> {
    [&[38], &id.to_le_bytes()[..], &[server], seed].concat()
}

/// A long message.
fn long_message(id: u32, server: u8, elements: &[u64]) -> Vec<u8> {
    let words = elements.iter().flat_map(|&element| (element as u32).to_le_bytes());
    [33].into_iter().chain(id.to_le_bytes()).chain([server]).chain(words).collect()
}

/// The long message of the elements that a seed message stands for.
pub fn long(sheet: &Sheet, message: &[u8]) -> Vec<u8> {
    let elements = elements_of(sheet, message).unwrap_or_default();
    [&[33], &message[1..6], &long_message(0, 0, &elements)[6..]].concat()
}

/// A share at a table.
fn share(table: &Parts, message: Vec<u8>, (r, s): (u64, u64)) -> Call {
    Call { table: table.clone(), message, r, s, room: ONE_BYTES, ..Call::of(Function::Share) }
}

/// A fresh table.
fn opened(suite: &mut Suite, servers: u32, own: u32, sheet: &[u8]) -> Result<Parts, String> {
    let open = suite.check(&Call::open_table(servers, own, sheet, 3))?;
    open.map(|done| done.table).map_err(|number| format!("the table is refused {number}"))
}

/// What a table notes of a share that it takes.
fn noted(suite: &mut Suite, call: &Call, elements: usize) -> Result<Vec<u64>, String> {
    suite.number(call, 0)?;
    let after = suite.check(call)?.map(|done| done.table).unwrap_or_default();
    let record = after.slots.iter().position(|slot| slot.stage == 1).unwrap_or(0);
    let place = read(&after)?.place(&after, record).to_vec();
    Ok(place[..elements].iter().map(|&number| u64::from(number)).collect())
}

/// RFC 8439, appendix A.1, row 1: the key stream of a seed of zeros under id 0, the top bit of each word cleared. A return
/// of one yes/no from it, at two servers.
pub fn by_hand(suite: &mut Suite) -> Verdict {
    suite.seed(1);
    let taken = [0x2de0_b876, 0x103d_f1a0, 0x656a_5d40, 0x28bd_8653, 0x3819_d2bd];
    let taken = [&taken[..], &[0x1aed_8da0, 0x4cef_36a8, 0x470d_778b, 0x7c59_41da]].concat();
    // Yes; u_0 = 2, v_0 = 3, h = 6, 0, 0; a, b, c = 5, 7, 35.
    let whole = [1, 2, 3, 6, 0, 0, 5, 7, 35];
    let first: Vec<u64> = whole.iter().zip(&taken).map(|(all, taken)| (all + P - taken) % P).collect();
    let words = |numbers: [u32; 4]| numbers.map(u32::to_le_bytes).concat();
    let (random, values) = (words([2, 3, 5, 7]), vec![1, 0, 0, 0]);
    let (sheet, servers, seeds, room) = (vec![17], 2, vec![0; 32], 42 + 38);
    let make = Call { sheet, servers, values, random, seeds, room, ..Call::of(Function::MakeSeeded) };
    let seed = seed_message(0, 1, &[0; 32]);
    suite.gives(&make, plain(Vec::new(), [long_message(0, 0, &first), seed.clone()].concat()))?;
    let table = opened(suite, 2, 1, &[17])?;
    let is = noted(suite, &share(&table, seed, (4, 0)), 9)?;
    if is != taken {
        return Err(format!("the elements of the seed of zeros are {is:x?}\nmust be {taken:x?}"));
    }
    Ok(())
}

/// A stream word of 31 ones gives 0, whatever its top bit is. Two seeds, found among many, whose streams under id 7 have
/// one: 0x7fffffff in the first, 0xffffffff in the second. Making takes nothing off there: the whole has a 0 there too.
pub fn all_ones(suite: &mut Suite) -> Verdict {
    suite.seed(8);
    let sheet = vec![17; 256];
    let table = opened(suite, 2, 1, &sheet)?;
    for (start, at) in [(808_328u32, 62), (6_224_802, 469)] {
        let seed = [&start.to_le_bytes()[..], &[0; 28]].concat();
        let is = noted(suite, &share(&table, seed_message(7, 1, &seed), (1_000_003, 19)), 774)?;
        if is[at] != 0 || is[at - 1] == 0 || is[at + 1] == 0 {
            return Err(format!(
                "the elements from {} on are {:?}\nmust be 0 in the middle",
                at - 1,
                &is[at - 1..at + 2]
            ));
        }
        let (values, random, room) = (vec![0; 1024], vec![1; 16], 3102 + 38);
        let make = Call {
            sheet: sheet.clone(),
            servers: 2,
            id: 7,
            values,
            random,
            seeds: seed,
            room,
            ..Call::of(Function::MakeSeeded)
        };
        suite.number(&make, 0)?;
        let made = suite.check(&make)?.map_or(Vec::new(), |done| done.bytes);
        if made[6 + 4 * at..][..4] != [0; 4] {
            return Err(suite.failure(&make, &format!("not 0 in server 0's element {at}")));
        }
    }
    Ok(())
}

/// Every other length of a seed message, every other kind byte, and lengths by kind.
pub fn no_message(suite: &mut Suite) -> Verdict {
    suite.seed(2);
    for sheet in [vec![17], vec![17, 18, 3, 19, 4], vec![21, 5]] {
        let fixture = Fixture::new(suite, 3, 1, &sheet, 4)?;
        let length = fixture.share.len();
        let good = Call { message: seed_message(NEXT, 1, &[3; 32]), ..fixture.share() };
        suite.number(&good, 0)?;
        let kind = |call: &Call, kind: u8| {
            let mut call = call.clone();
            call.message[0] = kind;
            call
        };
        for byte in (0..=255).filter(|&byte| byte != 38) {
            suite.number(&kind(&good, byte), 7)?;
        }
        suite.number(&kind(&fixture.share(), 38), 7)?;
        for other in (0..=length + 4).filter(|&other| other != 38) {
            let mut call = good.clone();
            call.message.resize(other, 0);
            suite.number(&call, 7)?;
        }
    }
    Ok(())
}

/// Seed messages at every server of 2 to 8, with every server byte: taken for the own number, but for 0.
pub fn servers(suite: &mut Suite) -> Verdict {
    suite.seed(3);
    for servers in 2..=8 {
        for own in 0..servers {
            let table = opened(suite, servers, own, &[17, 19, 2])?;
            for byte in (0..=9).chain([16, 32, 64, 127, 128, 255, own as u8 + 128]) {
                let number = if own > 0 && u32::from(byte) == own { 0 } else { 7 };
                suite.number(&share(&table, seed_message(9, byte, &[1; 32]), (100, 3)), number)?;
            }
        }
    }
    Ok(())
}

/// A seed gives the message and the table of the long message of its elements.
pub fn as_elements(suite: &mut Suite) -> Verdict {
    let mut rng = suite.seed(4);
    let mut sheets = vec![vec![17; 256], longest_sheet(), largest_sheet(), [21, 1].repeat(42)];
    sheets.extend((1..40).map(|count| vec![17; count]));
    sheets.extend((0..60).map(|_| gen::sheet(&mut rng, 60)));
    for bytes in sheets {
        let sheet = Sheet::read(&bytes).map_err(|number| format!("refused {number}"))?;
        let own = rng.between(1, 7) as u32;
        let table = opened(suite, 8, own, &bytes)?;
        let pair = gen::pair(&mut rng, sheet.multiplications());
        let short = seed_message(rng.next_u64() as u32, own as u8, &rng.seed());
        let must = suite.check(&share(&table, long(&sheet, &short), pair))?;
        suite.number(&share(&table, short.clone(), pair), 0)?;
        suite.gives(&share(&table, short, pair), must)?;
    }
    Ok(())
}

/// Seed messages with random damage, on tables in every stage.
pub fn damaged(suite: &mut Suite) -> Verdict {
    let mut rng = suite.seed(5);
    let fixtures = [Fixture::new(suite, 3, 2, &[17, 18, 3], 4)?, Fixture::among(suite, 4, 1, &[19, 5], 12, 3)?];
    for (fixture, own) in fixtures.iter().zip([2, 1]) {
        for table in [&fixture.idle, &fixture.first, &fixture.second, &fixture.third, &fixture.full, &fixture.closed] {
            for _ in 0..150 {
                let mut message = seed_message(NEXT, own, &rng.seed());
                for _ in 0..rng.below(3) {
                    let (head, any) = (rng.index(6), rng.index(message.len()));
                    let at = rng.pick([head, any]).min(message.len() - 1);
                    message[at] ^= rng.pick([1, 2, 5, 128]);
                }
                if rng.chance(20) {
                    let length = rng.pick([1, 6, 37, 39, 42, fixture.share.len()]);
                    message.resize(length, 0);
                }
                let (r, s) = rng.pick([(100, 3), (100, 3), (0, 3), (100, P)]);
                let room = rng.pick([22, 22, 40, 21, 0]);
                suite.agrees(&Call { room, ..share(table, message, (r, s)) })?;
            }
        }
    }
    Ok(())
}

/// Largest sheets at eight servers: 3,368 bytes are written, and the return is accepted.
pub fn large(suite: &mut Suite) -> Verdict {
    let mut rng = suite.seed(6);
    for (bytes, length) in [(vec![17; 256], 3368), (largest_sheet(), 0), (longest_sheet(), 0), ([21, 12].repeat(9), 0)]
    {
        let mut pool = Pool::open(suite, 8, &bytes, 2)?;
        for id in [0, u32::MAX] {
            let values = gen::values(&mut rng, &pool.sheet);
            let shares = pool.make_seeded(suite, &mut rng, id, &values)?;
            let written = shares.concat().len();
            if length != 0 && written != length {
                return Err(format!("{written} bytes of messages\nmust be {length}"));
            }
            let verdicts = pool.admit(suite, &shares, 1_000_003, 19)?;
            if verdicts != [1; 8] {
                return Err(format!("a return from seeds has the verdicts {verdicts:?}"));
            }
        }
    }
    Ok(())
}

/// The elements of a stream: four bytes each, lowest first, the top bit cleared, modulo p.
fn elements(stream: &[u8]) -> Vec<u64> {
    let (words, _) = stream.as_chunks::<4>();
    words.iter().map(|&word| u64::from(u32::from_le_bytes(word) % (1 << 31)) % P).collect()
}

/// A thousand random seeds and ids: what a table notes of the seed, and what making takes off, is OpenSSL's stream.
pub fn outside(suite: &mut Suite) -> Verdict {
    let stream = Stream::find()?;
    let mut rng = suite.seed(7);
    for number in 0..1000 {
        let bytes = match number % 20 {
            0 => vec![17; 256],
            1 => largest_sheet(),
            _ => gen::sheet(&mut rng, 30),
        };
        one_outside(suite, &mut rng, &stream, &bytes)?;
    }
    Ok(())
}

fn one_outside(suite: &mut Suite, rng: &mut Rng, stream: &Stream, bytes: &[u8]) -> Verdict {
    let sheet = Sheet::read(bytes).map_err(|number| format!("refused {number}"))?;
    let (seed, id) = (rng.seed(), rng.next_u64() as u32);
    let mut nonce = [0; 12];
    nonce[..4].copy_from_slice(&id.to_le_bytes());
    let must = elements(&stream.bytes(&seed, &nonce, 4 * sheet.share_elements())?);
    let table = opened(suite, 2, 1, bytes)?;
    let short = seed_message(id, 1, &seed);
    let is = noted(suite, &share(&table, short.clone(), (1_000_003, 19)), must.len())?;
    if is != must {
        return Err(format!("the elements of {seed:?} under {id} are {is:?}\nmust be, by OpenSSL, {must:?}"));
    }
    let (values, free) = (gen::values(rng, &sheet), gen::elements(rng, 4));
    let random = [&free[..], &long_message(id, 1, &must)[6..]].concat();
    let made = fast::make(bytes, 2, id, &values, &random, usize::MAX).unwrap_or_default();
    let expected = [&made[..sheet.share_length()], &short].concat();
    let (sheet, room) = (bytes.to_vec(), expected.len());
    let (servers, random, seeds) = (2, free, seed.to_vec());
    let make = Call { sheet, servers, id, values, random, seeds, room, ..Call::of(Function::MakeSeeded) };
    suite.gives(&make, plain(Vec::new(), expected))
}
