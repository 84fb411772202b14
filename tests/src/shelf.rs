//! Messages stored by place, and brought back.

use second::gen::{self, Rng};
use second::Sheet;

use crate::calls::{plain, Call, Function};
use crate::faults::{alone_and_in_pairs, fault, rooms};
use crate::suite::{Suite, Verdict};

const BOTH: [Function; 2] = [Function::Shelve, Function::Unshelve];

fn call(function: Function, messages: u32, width: u32, run: &[u8]) -> Call {
    Call { messages, width, message: run.to_vec(), room: run.len(), ..Call::of(function) }
}

/// Three messages of two bytes.
pub fn by_hand(suite: &mut Suite) -> Verdict {
    suite.seed(1);
    let (run, stored) = ([10, 11, 20, 21, 30, 31], [10, 20, 30, 11, 21, 31]);
    suite.gives(&call(Function::Shelve, 3, 2, &run), plain(Vec::new(), stored.to_vec()))?;
    suite.gives(&call(Function::Unshelve, 3, 2, &stored), plain(Vec::new(), run.to_vec()))?;
    suite.gives(&call(Function::Shelve, 2, 3, &run), plain(Vec::new(), vec![10, 21, 11, 30, 20, 31]))?;
    for function in BOTH {
        suite.gives(&call(function, 1, 6, &run), plain(Vec::new(), run.to_vec()))?;
        suite.gives(&call(function, 6, 1, &run), plain(Vec::new(), run.to_vec()))?;
    }
    Ok(())
}

/// 2 for R and W, 19, 14. Another R or W in range is 19, unless the product is the same.
fn order(suite: &mut Suite, function: Function) -> Verdict {
    let mut rng = suite.seed(2);
    let base = call(function, 3, 5, &rng.bytes(15));
    let messages = |order, number, place, new: u32| fault(order, number, place, move |call| call.messages = new);
    let width = |order, number, place, new: u32| fault(order, number, place, move |call| call.width = new);
    let length = |new: usize| fault(1, 19, "product", move |call| call.message.resize(new, 0));
    let mut faults: Vec<_> = [1, 2, 4, 64].map(|new| messages(1, 19, "product", new)).into();
    faults.extend([1, 4, 6, 4096].map(|new| width(1, 19, "product", new)));
    faults.extend([0, 1, 3, 5, 14, 16, 30].map(length));
    faults.extend([0, 65, 256, 259, 65_539, u32::MAX].map(|new| messages(0, 2, "messages", new)));
    faults.extend([0, 4097, 8192, 65_541, u32::MAX].map(|new| width(0, 2, "width", new)));
    faults.extend(rooms(2, 15));
    alone_and_in_pairs(suite, &base, &faults)?;
    for (messages, width) in [(5, 3), (15, 1), (1, 15)] {
        suite.number(&Call { messages, width, ..base.clone() }, 0)?;
    }
    Ok(())
}

pub fn shelving(suite: &mut Suite) -> Verdict {
    order(suite, Function::Shelve)
}

pub fn unshelving(suite: &mut Suite) -> Verdict {
    order(suite, Function::Unshelve)
}

/// R and W at both sides of their limits, with runs of the lengths that the product comes to, whole or wrapped.
pub fn limits(suite: &mut Suite) -> Verdict {
    suite.seed(3);
    let numbers = [0, 1, 2, 63, 64, 65, 4095, 4096, 4097, 65_535, 65_536, 65_537, 1 << 31, u32::MAX];
    for (messages, width) in numbers.into_iter().flat_map(|r| numbers.map(|w| (r, w))) {
        let product = u64::from(messages) * u64::from(width);
        let mut lengths = vec![0, 1, product, product % (1 << 16), product % (1 << 32)];
        lengths.extend([product + 1, product.saturating_sub(1)]);
        for length in lengths.into_iter().filter(|&length| length <= 300_000) {
            let number = match (messages, width) {
                (1..=64, 1..=4096) if length == product => 0,
                (1..=64, 1..=4096) => 19,
                _ => 2,
            };
            for function in BOTH {
                suite.number(&call(function, messages, width, &vec![0xA5; length as usize]), number)?;
            }
        }
    }
    for function in BOTH {
        suite.number(&call(function, 65_536, 65_536, &[]), 2)?;
        suite.number(&call(function, 4096, 64, &vec![1; 262_144]), 2)?;
    }
    Ok(())
}

/// The room exact, one short, none and longer, for the least and the most bytes.
pub fn exact_rooms(suite: &mut Suite) -> Verdict {
    let mut rng = suite.seed(4);
    for (messages, width) in [(1, 1), (64, 1), (1, 4096), (7, 33), (64, 4096)] {
        let length = (messages * width) as usize;
        let run = rng.bytes(length);
        for (room, number) in [(length, 0), (length + 1, 0), (length + 100, 0), (length - 1, 14), (0, 14)] {
            for function in BOTH {
                suite.number(&Call { room, ..call(function, messages, width, &run) }, number)?;
            }
        }
    }
    Ok(())
}

/// The bytes that a call writes, with some room to spare.
fn written(suite: &mut Suite, rng: &mut Rng, call: Call) -> Result<Vec<u8>, String> {
    let call = Call { room: call.room + rng.pick([0, 0, 1, 50]), ..call };
    suite.check(&call)?.map(|done| done.bytes).map_err(|number| suite.failure(&call, &format!("refused {number}")))
}

/// One run both ways: each call undoes the other, and byte w of message r is stored at w × R + r.
fn there_and_back(suite: &mut Suite, rng: &mut Rng, messages: u32, width: u32) -> Verdict {
    let (r, w) = (messages as usize, width as usize);
    let run = rng.bytes(r * w);
    let stored = written(suite, rng, call(Function::Shelve, messages, width, &run))?;
    let moved = (0..r * w).find(|&at| stored[at % w * r + at / w] != run[at]);
    let back = written(suite, rng, call(Function::Unshelve, messages, width, &stored))?;
    let taken = written(suite, rng, call(Function::Unshelve, messages, width, &run))?;
    let again = written(suite, rng, call(Function::Shelve, messages, width, &taken))?;
    if moved.is_some() || back != run || again != run {
        return Err(format!("{messages} messages of {width} bytes do not come back, or byte {moved:?} is misplaced"));
    }
    Ok(())
}

/// Every R with many W, and random ones.
pub fn every_size(suite: &mut Suite) -> Verdict {
    let mut rng = suite.seed(5);
    let widths: Vec<u32> = (1..=34).chain([63, 64, 65, 127, 128, 129, 255, 256, 257, 1000, 4095, 4096]).collect();
    for (messages, width) in (1..=64).flat_map(|r| widths.iter().map(move |&w| (r, w))) {
        there_and_back(suite, &mut rng, messages, width)?;
    }
    for _ in 0..200 {
        let (messages, width) = (rng.between(1, 64) as u32, rng.between(1, 4096) as u32);
        there_and_back(suite, &mut rng, messages, width)?;
    }
    Ok(())
}

/// The share messages of a return: the kind bytes stand first, then the ids' bytes, then the server numbers.
pub fn shares(suite: &mut Suite) -> Verdict {
    let mut rng = suite.seed(6);
    for servers in 2..=8 {
        let sheet = gen::sheet(&mut rng, 40);
        let read = Sheet::read(&sheet).map_err(|number| format!("refused {number}"))?;
        let s = servers as usize;
        let values = gen::values(&mut rng, &read);
        let random = gen::elements(&mut rng, (s - 1) * read.share_elements() + 4);
        let room = s * read.share_length();
        let make = Call { sheet, servers, id: 0x0D0C_0B0A, values, random, room, ..Call::of(Function::Make) };
        let run = written(suite, &mut rng, make)?;
        let width = read.share_length() as u32;
        let stored = written(suite, &mut rng, call(Function::Shelve, servers, width, &run))?;
        let mut head: Vec<u8> = [33, 10, 11, 12, 13].into_iter().flat_map(|byte| vec![byte; s]).collect();
        head.extend(0..servers as u8);
        let back = written(suite, &mut rng, call(Function::Unshelve, servers, width, &stored))?;
        if stored[..6 * s] != head[..] || back != run {
            return Err(format!("the shares of {servers} servers, stored, start with {:?}", &stored[..6 * s]));
        }
    }
    Ok(())
}
