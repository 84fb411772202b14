// Results: every call that is measured, on every side, and what was written compared.
use crate::pool;
use crate::setting::{settings, Setting, FREE, ID, LIMIT, ONE_BYTES, ROOM};
use crate::tables::{Lent, Ours, Table};
use second::{fast, gen, Circuit, Sheet};

struct Count {
    passed: u32,
    failed: u32,
}

impl Count {
    fn same<T: PartialEq>(&mut self, call: &str, x: &Setting, ours: T, second: T) {
        if ours == second {
            self.passed += 1;
        } else {
            self.failed += 1;
            println!("{call}, sheet {}, S = {}: the results differ", x.name, x.servers);
        }
    }
}

// What a call wrote into a buffer of so much room.
fn written(room: usize, call: impl FnOnce(&mut [u8]) -> Result<usize, u32>) -> Result<Vec<u8>, u32> {
    let mut out = vec![0xa5; room];
    let n = call(&mut out)?;
    out.truncate(n);
    Ok(out)
}

// The sizes of a sheet: counted on the circuit, which is built for it.
fn sizes(sheet: &[u8]) -> Result<[u32; 9], u32> {
    let s = Sheet::read(sheet)?;
    let c = Circuit::of(&s);
    let of_sheet = [s.columns().len(), s.entries(), s.published()];
    let of_circuit = [c.wires(), c.multiplications(), c.tests(), c.bytes().len()];
    let of_messages = [s.share_length(), gen::largest_limit(&s) as usize];
    let all = [&of_sheet[..], &of_circuit, &of_messages].concat();
    Ok(std::array::from_fn(|k| all[k] as u32))
}

fn stateless(count: &mut Count, x: &Setting) {
    count.same("sizes", x, pool::sizes(&x.sheet), sizes(&x.sheet));
    for room in [ROOM, 20] {
        let ours = written(room, |out| pool::circuit(&x.sheet, out));
        count.same("circuit", x, ours, fast::circuit(&x.sheet, room));
        let ours = written(room, |out| pool::make(&x.sheet, x.servers, ID, &x.values, &x.random, out));
        count.same("make", x, ours, fast::make(&x.sheet, x.servers, ID, &x.values, &x.random, room));
        let (v, free) = (&x.values, &x.random[..FREE]);
        let ours = written(room, |out| pool::make_seeded(&x.sheet, x.servers, ID, v, free, &x.seeds, out));
        let second = fast::make_seeded(&x.sheet, x.servers, ID, v, free, &x.seeds, room);
        count.same("make seeded", x, ours, second);
    }
    let mut totals = vec![0; ROOM];
    for room in [ROOM, 0] {
        let ours = pool::join(x.servers, &x.sheet, LIMIT, &x.closings, &mut totals[..room]);
        let ours = ours.map(|(accepted, n)| (accepted, totals[..n].to_vec()));
        let second = fast::join(x.servers, &x.sheet, LIMIT, &x.closings, room);
        count.same("join", x, ours, second.map(|joined| (joined.count, joined.totals)));
    }
}

// Every column and one past the last: lines, 18 with one return and 2 for columns that are not of points.
fn lines(count: &mut Count, x: &Setting) {
    for column in 0..=x.values.len() as u32 / 4 + 1 {
        for joined in [&x.lines, &x.closings] {
            let ours = pool::line(x.servers, &x.sheet, LIMIT, joined, column);
            let second = fast::line(x.servers, &x.sheet, LIMIT, joined, column);
            count.same("line", x, ours, second.map(|line| [line.determinant, line.slope, line.intercept]));
        }
    }
}

// What a call gives, in bytes, or the number of its refusal.
type Answer = Result<Vec<u8>, u32>;

// The round-one messages with another s in the one of the server after this.
fn unequal(x: &Setting, own: u32) -> Vec<u8> {
    let (next, mut joined) = ((own + 1) % x.servers, x.ones.clone());
    joined[(next as usize + 1) * ONE_BYTES - 4] ^= 1;
    joined
}

// The answers of a server's calls by their names: eight returns wait, one is dropped, and another taken in its record to its
// verdict and to the totals; each call also where it is refused, by the stage, round one by another s or, for opening, by the
// own number.
fn answers<T: Table>(x: &Setting, own: u32) -> Vec<(&'static str, Answer)> {
    let mut said = vec![("open", T::fresh(x, x.servers).map(|_| Vec::new()))];
    let mut t = T::fresh(x, own).expect("a table");
    let mut other = x.share(own).to_vec();
    for id in 100..108 {
        other[1..5].copy_from_slice(&u32::to_le_bytes(id));
        said.push(("share", t.share(&other, x.r, x.s).map(Vec::from)));
    }
    said.push(("share", t.share(x.share(own), x.r, x.s).map(Vec::from)));
    said.extend([t.drop(103), t.drop(103)].map(|done| ("drop", done.map(|()| Vec::new()))));
    // A seed: under an id that is free and again, for another server, and at server 0, where it is refused 7.
    let mut seed = x.seed_message(own.max(1));
    for id in [200, 200] {
        seed[1..5].copy_from_slice(&u32::to_le_bytes(id));
        said.push(("share, seed", t.share(&seed, x.r, x.s).map(Vec::from)));
        said.push(("drop", t.drop(id).map(|()| Vec::new())));
    }
    seed[5] ^= 1;
    said.push(("share, seed", t.share(&seed, x.r, x.s).map(Vec::from)));
    for message in [x.share(own), x.share(own)] {
        said.push(("share", t.share(message, x.r, x.s).map(Vec::from)));
    }
    let slip = unequal(x, own);
    let ones = [(101, &x.ones), (ID, &slip), (ID, &x.ones), (ID, &x.ones)].map(|(id, joined)| t.round_one(id, joined));
    said.extend(ones.map(|message| ("round one", message.map(Vec::from))));
    let twos = [t.round_two(101, &x.twos), t.round_two(ID, &x.twos), t.round_two(ID, &x.twos)];
    said.extend(twos.map(|verdict| ("round two", verdict.map(|accepted| vec![u8::from(accepted)]))));
    said.extend([t.enter(101), t.enter(ID), t.enter(ID)].map(|done| ("enter", done.map(|()| Vec::new()))));
    let mut out = vec![0xa5; ROOM];
    said.push(("close", t.close(&mut out).map(Vec::from)));
    said.extend((100..108).map(|id| ("drop", t.drop(id).map(|()| Vec::new()))));
    for _ in 0..2 {
        said.push(("close", t.close(&mut out).map(Vec::from)));
    }
    said
}

fn at_server(count: &mut Count, x: &Setting, own: u32) {
    let ours = answers::<Ours>(x, own);
    for others in [answers::<fast::Table>(x, own), answers::<Lent>(x, own)] {
        for ((call, ours), (_, other)) in ours.iter().zip(&others) {
            count.same(call, x, ours, other);
        }
    }
}

// How many comparisons passed and failed.
pub fn run() -> (u32, u32) {
    let mut count = Count { passed: 0, failed: 0 };
    for x in settings() {
        stateless(&mut count, &x);
        lines(&mut count, &x);
        for own in 0..x.servers {
            at_server(&mut count, &x, own);
        }
    }
    (count.passed, count.failed)
}
