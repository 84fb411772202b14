//! Servers that stop between verdict and entry and go on later: their totals are those of the
//! others. And what comes of an id that is dropped at one server and entered at another.

mod common;

use common::hall::SHEET;
use common::twins::Twins;
use common::*;
use second::field;
use second::gen::{added_up, Answer, Call, Rng, Server};
use second::{join, Joined, Sheet, Verdict};

/// S servers, and the shares of the returns that were accepted.
struct Pool {
    tables: Vec<Twins>,
    accepted: Vec<(u32, Vec<Vec<u8>>)>,
}

const LIMIT: u32 = 20;

impl Pool {
    fn open(servers: u32) -> Pool {
        Pool {
            tables: Twins::open_all(servers, &SHEET, LIMIT, 1),
            accepted: Vec::new(),
        }
    }

    /// Takes an honest return to its accepted verdict at every server.
    fn accept(&mut self, id: u32) {
        let shares = honest(&SHEET, self.tables.len() as u32, id);
        let first = rounds::messages(&mut self.tables, |own| Call::Share {
            message: shares[own].clone(),
            r: 100,
            s: 3,
            room: ONE_BYTES,
        });
        let second = rounds::messages(&mut self.tables, |_| Call::RoundOne {
            id,
            joined: first.clone(),
            room: TWO_BYTES,
        });
        for table in &mut self.tables {
            let joined = second.clone();
            let verdict = table.call(&Call::RoundTwo { id, joined });
            assert_eq!(verdict, Answer::Verdict(Verdict::Accepted));
        }
        self.accepted.push((id, shares));
    }

    fn enter(&mut self, own: usize, id: u32) {
        let answer = self.tables[own].call(&Call::Enter { id });
        assert_eq!(answer, Answer::Entered);
    }

    fn drop(&mut self, own: usize, id: u32) {
        let answer = self.tables[own].call(&Call::Drop { id });
        assert_eq!(answer, Answer::Dropped);
    }

    /// Drops a return at a server if it is one of these, else enters it.
    fn end(&mut self, own: usize, id: u32, dropped: &[u32]) {
        if dropped.contains(&id) {
            self.drop(own, id);
        } else {
            self.enter(own, id);
        }
    }

    fn close(&mut self, own: usize) -> Vec<u8> {
        match self.tables[own].call(&Call::Close { room: ROOM }) {
            Answer::Message(message) => message,
            other => panic!("server {own}: {other:?}"),
        }
    }

    /// The joining of closing messages, and the number and sums of all accepted returns but
    /// those that were dropped.
    fn check(&self, closings: &[Vec<u8>], dropped: &[u32]) {
        let servers = self.tables.len() as u32;
        let sheet = Sheet::read(&SHEET).unwrap();
        let entered = self.accepted.iter().filter(|(id, _)| !dropped.contains(id));
        let mut totals = vec![0; sheet.published()];
        for (_, shares) in entered.clone() {
            let whole = added_up(&sheet, shares).unwrap();
            for (total, entry) in totals.iter_mut().zip(sheet.published_entries()) {
                *total = field::add(*total, whole[entry]);
            }
        }
        let totals: Vec<u32> = totals.iter().map(|&total| total as u32).collect();
        let must = Joined {
            count: entered.count() as u32,
            totals: words(&totals),
        };
        assert_eq!(
            join(servers, &SHEET, LIMIT, &closings.concat(), ROOM),
            Ok(must)
        );
    }
}

/// One server stops after the verdict of some returns. The others enter these and close; it goes
/// on when they have.
#[test]
fn after_the_others_closed() {
    for servers in 2..=8u32 {
        for stopped in [0, 1, servers as usize - 1] {
            let mut pool = Pool::open(servers);
            (0..4).for_each(|id| pool.accept(id));
            let others = (0..servers as usize).filter(|&own| own != stopped);
            let mut closings = vec![Vec::new(); servers as usize];
            for own in others {
                for id in [0, 1, 3] {
                    pool.enter(own, id);
                }
                pool.drop(own, 2);
                closings[own] = pool.close(own);
            }
            // What it kept is what it had: the verdicts, and nothing in its totals.
            assert_eq!(pool.tables[stopped].plain.entered(), 0);
            let refused = pool.tables[stopped].call(&Call::Close { room: ROOM });
            assert_eq!(refused, Answer::Refused(11));
            pool.drop(stopped, 2);
            for id in [3, 0, 1] {
                pool.enter(stopped, id);
            }
            closings[stopped] = pool.close(stopped);
            pool.check(&closings, &[2]);
        }
    }
}

/// It stops after some of its entries, and takes the rest once more returns were judged.
#[test]
fn between_other_returns() {
    let mut rng = Rng::new(81);
    for servers in [2, 3, 8] {
        let mut pool = Pool::open(servers);
        let mut left: Vec<Vec<u32>> = vec![Vec::new(); servers as usize];
        let dropped: Vec<u32> = (0..LIMIT).filter(|_| rng.chance(20)).collect();
        for id in 0..LIMIT {
            // Each server enters and drops what it likes now, so that a place is free.
            for (own, left) in left.iter_mut().enumerate() {
                rng.shuffle(left);
                let kept = rng.index(8).min(left.len());
                for id in left.split_off(kept) {
                    pool.end(own, id, &dropped);
                }
                left.push(id);
            }
            pool.accept(id);
        }
        let mut closings = Vec::new();
        for (own, left) in left.iter().enumerate() {
            for &id in left {
                pool.end(own, id, &dropped);
            }
            closings.push(pool.close(own));
        }
        pool.check(&closings, &dropped);
    }
}

/// An id dropped at one server and entered at another: the counts differ, which joining refuses.
/// With one more of the kind the other way round they do not, and the sums are those of no pool.
#[test]
fn dropped_here_and_entered_there() {
    let mut pool = Pool::open(2);
    (0..3).for_each(|id| pool.accept(id));
    pool.enter(0, 0);
    pool.drop(1, 0);
    for own in 0..2 {
        pool.enter(own, 1);
    }
    let mut other = pool.tables.clone();
    for own in 0..2 {
        pool.enter(own, 2);
    }
    let joined = [pool.close(0), pool.close(1)].concat();
    assert_eq!(join(2, &SHEET, LIMIT, &joined, ROOM), Err(12));
    std::mem::swap(&mut pool.tables, &mut other);
    pool.drop(0, 2);
    pool.enter(1, 2);
    let joined = [pool.close(0), pool.close(1)].concat();
    let answer = join(2, &SHEET, LIMIT, &joined, ROOM).unwrap();
    assert_eq!(answer.count, 2);
    let sheet = Sheet::read(&SHEET).unwrap();
    let options = field::elements(&answer.totals[4..16]).unwrap();
    // Two returns choose two options in all.
    assert_eq!(sheet.published(), 5);
    assert!(field::sum(options) != 2);
}
