// The calls on a table. They change it, so each is timed where returns come one after another, on every side alike. A
// table is opened for 64 returns and seven more. For each id the calls that lead up to the measured one are made unmeasured,
// then the measured one is timed; after a share or a round the return still waits and is dropped unmeasured. After 64
// returns a fresh table is opened, unmeasured. So a share looks through 32 decided ids on the average, and the fast form's
// list of ids grows as it does in use (a clone of its table would have to make room at every call). Where eight returns
// wait, seven others were taken before: they stay in the first seven slots and await round one. Closing alone is timed on a
// table with one entered return that is restored before each call, unmeasured: by a copy of the three parts, or by a clone.
// No call may be refused.
//
// The clock is read once for several tables in the same state, and the time of an empty turn is taken off. At M = 256
// it is one table: more would push the fast form's work space, which it keeps in each table, out of the nearest cache.
use crate::setting::{Setting, ID, ONE_BYTES, RETURNS, ROOM, TWO_BYTES};
use crate::tables::Table;
use std::hint::black_box;
use std::time::Instant;

#[derive(Clone, Copy, PartialEq)]
pub enum Call {
    Open,
    Share,
    // A share from a seed, at server 1.
    Seed,
    RoundOne,
    RoundTwo,
    Enter,
    Drop,
    Close,
}

// How many tables are called while the clock runs once.
fn tables_for(x: &Setting) -> usize {
    (256 / x.gates).clamp(1, 16)
}

// How many calls a series times.
pub fn calls_for(x: &Setting) -> usize {
    RETURNS as usize * tables_for(x)
}

// Nanoseconds of one call on each table.
fn all<T>(tables: &mut [T], mut call: impl FnMut(&mut T)) -> f64 {
    let start = Instant::now();
    for table in tables {
        call(black_box(table));
    }
    start.elapsed().as_nanos() as f64
}

// Puts an id into messages of so many bytes each.
fn put_id(messages: &mut [u8], length: usize, id: u32) {
    for message in messages.chunks_mut(length) {
        message[1..5].copy_from_slice(&id.to_le_bytes());
    }
}

// The messages of one return under one id.
struct Messages {
    share: Vec<u8>,
    seed: Vec<u8>,
    ones: Vec<u8>,
    twos: Vec<u8>,
}

impl Messages {
    fn of(x: &Setting) -> Messages {
        Messages { share: x.share(0).to_vec(), seed: x.seed_message(1), ones: x.ones.clone(), twos: x.twos.clone() }
    }

    fn put(&mut self, id: u32) {
        put_id(&mut self.share, usize::MAX, id);
        put_id(&mut self.seed, usize::MAX, id);
        put_id(&mut self.ones, ONE_BYTES, id);
        put_id(&mut self.twos, TWO_BYTES, id);
    }
}

fn taken<A>(answer: Result<A, u32>) {
    black_box(answer.expect("taken"));
}

// Takes one return on each table; gives the time of the measured call.
fn one_return<T: Table>(x: &Setting, call: Call, id: u32, m: &Messages, tables: &mut [T]) -> f64 {
    let message = if call == Call::Seed { &m.seed } else { &m.share };
    let share = all(tables, |t| taken(t.share(message, x.r, x.s)));
    if matches!(call, Call::Drop | Call::Share | Call::Seed) {
        let drop = all(tables, |t| taken(t.drop(id)));
        return if call == Call::Drop { drop } else { share };
    }
    let one = all(tables, |t| taken(t.round_one(id, &m.ones)));
    if call == Call::RoundOne {
        all(tables, |t| taken(t.drop(id)));
        return one;
    }
    let two = all(tables, |t| assert!(t.round_two(id, &m.twos) == Ok(true)));
    if call == Call::RoundTwo {
        all(tables, |t| taken(t.drop(id)));
        return two;
    }
    all(tables, |t| taken(t.enter(id)))
}

// A table of server `own` in which so many returns wait, under ids of their own.
pub fn waiting<T: Table>(x: &Setting, own: u32, others: u32) -> T {
    let mut table = T::fresh(x, own).expect("opened");
    let mut share = x.share(own).to_vec();
    for id in 1000..1000 + others {
        put_id(&mut share, usize::MAX, id);
        taken(table.share(&share, x.r, x.s));
    }
    table
}

// Takes one return to the totals, so that the table closes.
fn enter<T: Table>(x: &Setting, table: &mut T) {
    taken(table.share(x.share(0), x.r, x.s));
    taken(table.round_one(ID, &x.ones));
    taken(table.round_two(ID, &x.twos));
    taken(table.enter(ID));
}

// Opens in the place of each table.
fn openings<T: Table>(x: &Setting, tables: &mut [T]) -> f64 {
    let mut opened = Vec::with_capacity(tables.len());
    all(tables, |t| opened.push(t.open(x)))
}

fn closings<T: Table>(tables: &mut [T], was: &T, out: &mut [u8]) -> f64 {
    for table in tables.iter_mut() {
        table.restore(was);
    }
    all(tables, |t| taken(t.close(out)))
}

// Nanoseconds for a call, over the returns of one table in which so many others wait.
pub fn series<T: Table>(x: &Setting, call: Call, others: u32) -> f64 {
    let fresh = || waiting::<T>(x, u32::from(call == Call::Seed), others);
    let mut tables: Vec<T> = (0..tables_for(x)).map(|_| fresh()).collect();
    let mut was = fresh();
    if call == Call::Close {
        enter(x, &mut was);
    }
    let (mut messages, mut out) = (Messages::of(x), vec![0; ROOM]);
    let (mut spent, mut empty) = (0.0, 0.0);
    for id in 0..RETURNS {
        messages.put(id);
        empty += all(&mut tables, |_| ());
        spent += match call {
            Call::Open => openings(x, &mut tables),
            Call::Close => closings(&mut tables, &was, &mut out),
            _ => one_return(x, call, id, &messages, &mut tables),
        };
    }
    (spent - empty) / calls_for(x) as f64
}
