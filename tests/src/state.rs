//! The state of a table, told by hand.

use second::gen;

use crate::calls::{Call, Function};
use crate::fixture::Fixture;
use crate::pools::Pool;
use crate::suite::{Suite, Verdict};
use crate::tables::fixtures;

/// Each table of a pool tells S, its own number, N, Q, and then these: closed, decided, entered, waiting.
fn tells(suite: &mut Suite, pool: &Pool, counts: [u64; 4]) -> Verdict {
    for (own, table) in pool.tables.iter().enumerate() {
        let call = Call::state_of(table);
        let told = suite.check(&call)?.map(|done| done.numbers);
        let opened = [pool.servers, own as u32, pool.returns, pool.least].map(u64::from);
        if told != Ok([opened, counts].concat()) {
            return Err(suite.failure(&call, &format!("{told:?}\nmust be {opened:?} {counts:?}")));
        }
    }
    Ok(())
}

/// From opening to the close: returns that wait, are accepted, entered, dropped and rejected.
pub fn by_hand(suite: &mut Suite) -> Verdict {
    let mut rng = suite.seed(900);
    for (servers, returns, least) in [(2, 1024, 2), (3, 9, 2), (8, 300, 2)] {
        let mut pool = Pool::open_from(suite, servers, &[17, 19, 2], returns, least)?;
        tells(suite, &pool, [0, 0, 0, 0])?;
        for id in 1..=3 {
            let shares = pool.make_zeros(suite, &mut rng, id)?;
            let (r, s) = gen::pair(&mut rng, pool.sheet.multiplications());
            let joined = pool.share(suite, &shares, r, s)?;
            tells(suite, &pool, [0, 0, 0, id.into()])?;
            let joined = pool.round_one(suite, &joined)?;
            pool.round_two(suite, &joined)?;
            tells(suite, &pool, [0, 0, 0, id.into()])?;
        }
        pool.enter(suite, 2)?;
        tells(suite, &pool, [0, 1, 1, 2])?;
        pool.drop(suite, 1)?;
        tells(suite, &pool, [0, 2, 1, 1])?;
        pool.enter(suite, 3)?;
        tells(suite, &pool, [0, 3, 2, 0])?;
        let mut false_one = pool.make_zeros(suite, &mut rng, 4)?;
        false_one[0][6] ^= 2;
        pool.judge(suite, &false_one, 11, 12)?;
        tells(suite, &pool, [0, 4, 2, 0])?;
        pool.close(suite)?;
        tells(suite, &pool, [1, 4, 2, 0])?;
    }
    Ok(())
}

/// A closed table in which returns wait, which no call leaves, tells them too.
pub fn closed_by_hand(suite: &mut Suite) -> Verdict {
    for fixture in fixtures(suite)? {
        let Fixture { first, .. } = &fixture;
        let call = Call::state_of(&first.with(|table| table.bytes[1] = 1));
        let open = suite.check(&Call::state_of(first))?.map(|done| done.numbers);
        let told = suite.check(&call)?.map(|done| done.numbers);
        let expected = open.map(|mut numbers| {
            numbers[4] = 1;
            numbers
        });
        if told != expected || told.as_ref().is_ok_and(|numbers| numbers[7] == 0) {
            return Err(suite.failure(&call, &format!("{told:?}\nmust be {expected:?}")));
        }
        suite.number(&Call { table: call.table.clone(), ..Call::of(Function::Drop) }, 11)?;
    }
    Ok(())
}
