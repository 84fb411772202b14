//! One r and one s at every server, told by hand: what round one messages tell of them, and what 16 refuses and leaves.

use second::gen::{self, Rng};

use crate::calls::{Call, Function};
use crate::fixture::{Fixture, NEXT, UNKNOWN};
use crate::layout::{id_of, read, AWAITS_ONE};
use crate::orders::{altered_challenges, every_order, ordered, put, reversed, start};
use crate::pools::Pool;
use crate::reference::{ONE_BYTES, TWO_BYTES};
use crate::suite::{Suite, Verdict};

const P: u64 = 2_147_483_647;
const SHEET: [u8; 3] = [17, 18, 3];
/// The multiplications of the sheet.
const M: u64 = 4;
/// Where r and s stand in a round one message.
const R: usize = 14;
const S: usize = 18;
/// The r and s of a server that did not slip.
const PAIR: (u64, u64) = (1_000_003, 19);
/// Those of servers that did: only s differs, or only r.
const OTHERS: [(u64, u64); 2] = [(PAIR.0, PAIR.1 + 1), (PAIR.0 + 1, PAIR.1)];

/// Round one at a server, its messages in server order.
fn round(suite: &mut Suite, servers: usize, own: usize) -> Result<Call, String> {
    Ok(Fixture::new(suite, servers as u32, own, &SHEET, 3)?.round_one())
}

fn with(call: &Call, message: Vec<u8>) -> Call {
    Call { message, ..call.clone() }
}

/// The r and s that a share was taken with stand after e, in this order.
pub fn told(suite: &mut Suite) -> Verdict {
    for (servers, (r, s)) in (2..).zip([(M + 1, 0), (0x0102_0304, 0x0506_0708), (P - 1, P - 1), (2 * M, 1)]) {
        let mut rng = suite.seed(50 + u64::from(servers));
        let mut pool = Pool::open(suite, servers, &SHEET, 2)?;
        let shares = pool.make_zeros(suite, &mut rng, 0x0403_0201)?;
        let joined = pool.share(suite, &shares, r, s)?;
        for (server, message) in (0..).zip(joined.chunks(22)) {
            let pair = [r, s].map(|number| (number as u32).to_le_bytes()).concat();
            let head = [34, 1, 2, 3, 4, server];
            if message.len() != 22 || message[..6] != head || message[14..] != pair {
                return Err(format!("a round one message with r = {r} and s = {s} is {message:?}"));
            }
        }
        let joined = pool.round_one(suite, &joined)?;
        if pool.round_two(suite, &joined)? != vec![1; servers as usize] {
            return Err(format!("an honest return with r = {r} and s = {s} is not accepted"));
        }
    }
    Ok(())
}

/// Another server's r or s: 16 for any other element, 12 for what is none.
pub fn numbers(suite: &mut Suite) -> Verdict {
    for (servers, own) in (2..=8).flat_map(|servers| (0..servers).map(move |own| (servers, own))) {
        let call = round(suite, servers, own)?;
        let others = (0..servers).filter(|&other| other != own).map(|other| start(&call.message, other));
        for (at, same) in others.flat_map(|at| [(at + R, PAIR.0), (at + S, PAIR.1)]) {
            for number in [0, 1, M, M + 1, same - 1, same + 1, same + (1 << 24), P - 1] {
                suite.number(&with(&call, put(&call.message, at, number)), 16)?;
            }
            for number in [P, P + 1, P + 1 + same, (1 << 32) - 1] {
                suite.number(&with(&call, put(&call.message, at, number)), 12)?;
            }
            suite.number(&with(&call, put(&call.message, at, same)), 0)?;
        }
    }
    Ok(())
}

/// r or s changed in one message, wherever it stands: 16, or 12 where it is the own one. In all others: 16.
pub fn places(suite: &mut Suite) -> Verdict {
    for (servers, own) in (2..=8).flat_map(|servers| (0..servers).map(move |own| (servers, own))) {
        let call = round(suite, servers, own)?;
        for message in [call.message.clone(), reversed(&call.message)] {
            for server in 0..servers {
                for wrong in altered_challenges(&message, server) {
                    suite.number(&with(&call, wrong), if server == own { 12 } else { 16 })?;
                }
            }
            for at in [R, S] {
                let others = (0..servers).filter(|&server| server != own);
                let all = others.fold(message.clone(), |all, server| put(&all, start(&all, server) + at, 1_234));
                suite.number(&with(&call, all), 16)?;
            }
        }
    }
    Ok(())
}

/// Servers take a return with these pairs, which differ: each refuses round one 16, and goes on waiting until it is
/// dropped. Its id is then used.
fn slip(suite: &mut Suite, pool: &mut Pool, shares: &[Vec<u8>], pairs: &[(u64, u64)], order: &[usize]) -> Verdict {
    let before = pool.tables.clone();
    let joined = pool.share_with(suite, shares, pairs)?;
    let (id, message) = (id_of(&joined), ordered(&joined, order));
    for (table, before) in pool.tables.iter().zip(&before) {
        let (table, message) = (table.clone(), message.clone());
        let call = Call { table, id, message, room: TWO_BYTES, ..Call::of(Function::RoundOne) };
        suite.number(&call, 16)?;
        suite.number(&Call { room: 0, ..call.clone() }, 16)?;
        let waits = call.table.record(id).is_some_and(|record| call.table.slots[record].stage == AWAITS_ONE);
        if !waits || call.table.bytes != before.bytes {
            return Err(suite.failure(&call, "for a return that does not await round one"));
        }
    }
    pool.drop(suite, id)?;
    for (parts, message) in pool.tables.iter().zip(shares) {
        let full = read(parts)?.decided + parts.waiting() == pool.returns as usize;
        let (table, message, (r, s)) = (parts.clone(), message.clone(), PAIR);
        let call = Call { table, message, r, s, room: ONE_BYTES, ..Call::of(Function::Share) };
        suite.number(&call, if full { 13 } else { 10 })?;
    }
    Ok(())
}

/// A return whose servers have another r or s, or both, at one of them or at each.
pub fn random_slip(suite: &mut Suite, rng: &mut Rng, pool: &mut Pool, shares: &[Vec<u8>], pair: (u64, u64)) -> Verdict {
    let gates = pool.sheet.multiplications();
    let mut pairs = vec![pair; shares.len()];
    while pairs.iter().all(|&other| other == pairs[0]) {
        let (r, s) = gen::pair(rng, gates);
        let at = rng.index(pairs.len());
        pairs[at] = rng.pick([(r, pair.1), (pair.0, s), (r, s)]);
        if rng.chance(30) {
            pairs.fill_with(|| gen::pair(rng, gates));
        }
    }
    let mut order: Vec<usize> = (0..shares.len()).collect();
    rng.shuffle(&mut order);
    slip(suite, pool, shares, &pairs, &order)
}

/// Servers with PAIR, but for some with another one.
fn pairs(servers: usize, others: &[(usize, (u64, u64))]) -> Vec<(u64, u64)> {
    let mut pairs = vec![PAIR; servers];
    others.iter().for_each(|&(server, pair)| pairs[server] = pair);
    pairs
}

/// The pairs of servers of which one slips, in r, in s or in both; of neighbours that are alike; of the same sums.
fn uneven() -> Vec<Vec<(u64, u64)>> {
    let (r, s) = PAIR;
    let [one, two] = OTHERS;
    let mut all = Vec::new();
    for (servers, server) in (2..=8).flat_map(|servers| (0..servers).map(move |server| (servers, server))) {
        all.extend([one, two, (r + 1, s - 1), (P - 1, 0)].map(|pair| pairs(servers, &[(server, pair)])));
    }
    all.extend([
        pairs(4, &[(2, one), (3, one)]),
        pairs(4, &[(1, two), (3, two)]),
        pairs(4, &[(1, one), (2, one)]),
        pairs(4, &[(1, one), (2, two)]),
        pairs(6, &[(2, one), (3, one), (4, two), (5, two)]),
        pairs(8, &[(4, two), (5, two), (6, two), (7, two)]),
        vec![(200, 100), (100, 200)],
        (0..8).map(|k| (r + k, s)).collect(),
        (0..8).map(|k| (r, k)).collect(),
    ]);
    all
}

/// Unequal pairs with unaltered messages, from the last to the first; two and two alike in every order.
pub fn slips(suite: &mut Suite) -> Verdict {
    let turned = uneven().into_iter().map(|pairs| (pairs.clone(), (0..pairs.len()).rev().collect()));
    let alike = pairs(4, &[(2, OTHERS[0]), (3, OTHERS[0])]);
    let ordered = every_order(4).into_iter().map(|order| (alike.clone(), order));
    for (pairs, order) in turned.chain(ordered) {
        let mut rng = suite.seed(60 + pairs.len() as u64);
        let mut pool = Pool::open(suite, pairs.len() as u32, &SHEET, 3)?;
        let shares = pool.make_zeros(suite, &mut rng, 5)?;
        slip(suite, &mut pool, &shares, &pairs, &order)?;
    }
    Ok(())
}

/// 11, 12, 16, 14: one fault after the other goes away.
pub fn order(suite: &mut Suite) -> Verdict {
    for (servers, own) in [(2, 0), (2, 1), (3, 1), (8, 7)] {
        let good = round(suite, servers, own)?;
        let other = start(&good.message, (own + 1) % servers);
        let unequal = with(&good, put(&good.message, other + R, 0));
        let mine = start(&good.message, own);
        for broken in [other + S, other + 6, mine + 10, mine + R, mine + S] {
            let broken = with(&unequal, put(&unequal.message, broken, P));
            for room in [0, TWO_BYTES - 1, TWO_BYTES] {
                suite.number(&Call { id: UNKNOWN, room, ..broken.clone() }, 11)?;
                suite.number(&Call { room, ..broken.clone() }, 12)?;
                suite.number(&Call { id: UNKNOWN, room, ..unequal.clone() }, 11)?;
                suite.number(&Call { room, ..unequal.clone() }, 16)?;
                suite.number(&Call { room, ..good.clone() }, if room < TWO_BYTES { 14 } else { 0 })?;
            }
        }
    }
    Ok(())
}

/// After 16 the table is as before: unaltered messages are taken, round two and a close are not, and a drop ends it.
pub fn dropped(suite: &mut Suite) -> Verdict {
    for fixture in [Fixture::new(suite, 3, 1, &SHEET, 3)?, Fixture::among(suite, 3, 1, &SHEET, 12, 4)?] {
        let good = fixture.round_one();
        let unequal = with(&good, put(&good.message, start(&good.message, 2) + S, 20));
        suite.number(&unequal, 16)?;
        suite.number(&good, 0)?;
        suite.number(&Call { table: fixture.first.clone(), ..fixture.round_two() }, 11)?;
        suite.number(&Call { table: fixture.first.clone(), ..fixture.close() }, 11)?;
        let drop = fixture.drop();
        let table = suite.check(&drop)?.map_err(|number| suite.failure(&drop, &format!("refused {number}")))?.table;
        suite.number(&Call { table: table.clone(), ..fixture.share() }, 10)?;
        suite.number(&Call { table: table.clone(), ..unequal }, 11)?;
        suite.number(&Call { table, id: NEXT, ..Call::of(Function::Drop) }, 11)?;
    }
    Ok(())
}

/// Round one messages without r and s, all of them or one, and round two messages with more: 12.
pub fn lengths(suite: &mut Suite) -> Verdict {
    for servers in 2..=8 {
        let fixture = Fixture::new(suite, servers, 0, &SHEET, 3)?;
        let (one, two) = (fixture.round_one(), fixture.round_two());
        if one.message.len() != 22 * servers as usize || two.message.len() != 14 * servers as usize {
            return Err(suite.failure(&one, "with messages of another length"));
        }
        let short = one.message.chunks(22).flat_map(|message| &message[..14]).copied().collect();
        suite.number(&with(&one, short), 12)?;
        let long = two.message.chunks(14).flat_map(|message| [message, &[0; 8]].concat()).collect();
        suite.number(&with(&two, long), 12)?;
        for at in (0..one.message.len()).step_by(22) {
            let message = [&one.message[..at + 14], &one.message[at + 22..]].concat();
            suite.number(&with(&one, message), 12)?;
        }
    }
    Ok(())
}
