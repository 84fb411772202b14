//! Every refusal of every function by one fault, and every two faults at once: the earlier in document 01's order wins.

mod rounds;
mod tables;

use second::gen::{self, Rng};
use second::Sheet;

use crate::calls::{found, Call, Function};
use crate::layout::put_word;
use crate::suite::{Suite, Verdict};
pub use rounds::{round_one, round_two};
pub use tables::{close, drop, enter, open, share, share_seed};

const P: u64 = 2_147_483_647;

/// A fault: its position in the function's order of refusals, its number, the place that it touches, and the change.
/// Changes of a length stand last in a list, so that they are made last.
pub struct Fault {
    order: u32,
    number: u32,
    place: &'static str,
    change: Box<dyn Fn(&mut Call)>,
}

pub fn fault(order: u32, number: u32, place: &'static str, change: impl Fn(&mut Call) + 'static) -> Fault {
    Fault { order, number, place, change: Box::new(change) }
}

/// The call as it is, each fault alone, and each two at different places.
pub fn alone_and_in_pairs(suite: &mut Suite, base: &Call, faults: &[Fault]) -> Verdict {
    suite.number(base, 0)?;
    for (i, one) in faults.iter().enumerate() {
        let mut call = base.clone();
        (one.change)(&mut call);
        suite.number(&call, one.number)?;
        for two in faults[i + 1..].iter().filter(|two| two.place != one.place) {
            let mut both = call.clone();
            (two.change)(&mut both);
            let earlier = if two.order < one.order { two } else { one };
            suite.number(&both, earlier.number)?;
        }
    }
    Ok(())
}

/// Rooms too short.
pub fn rooms(order: u32, needed: usize) -> Vec<Fault> {
    let room = |room: usize| fault(order, 14, "room", move |call| call.room = room);
    vec![room(needed - 1), room(1), room(0)]
}

/// Numbers of servers outside 2 to 8.
fn servers(order: u32) -> Vec<Fault> {
    let wrong = [0, 1, 9, 255, 256, 258, 65_538, u32::MAX];
    wrong.map(|number| fault(order, 2, "servers", move |call| call.servers = number)).into()
}

/// Sheets that are refused 1 or 2.
pub fn sheets(order: u32) -> Vec<Fault> {
    let wrong: [(u32, Vec<u8>); 20] = [
        (1, vec![20]),
        (1, vec![21]),
        (1, vec![22]),
        (1, vec![17, 21]),
        (1, vec![17, 20, 200, 0, 0]),
        (1, vec![17, 18]),
        (1, vec![17, 19]),
        (1, [vec![17; 300], vec![99]].concat()),
        (2, vec![]),
        (2, vec![18, 1]),
        (2, vec![17, 18, 65, 99]),
        (2, vec![19, 0]),
        (2, vec![19, 25]),
        (2, vec![20, 0, 0, 0, 0]),
        (2, vec![20, 0, 0, 0, 1]),
        (2, vec![20, 255, 255, 255, 255, 99]),
        (2, vec![21, 0]),
        (2, vec![21, 13]),
        (2, vec![21, 255, 99]),
        (2, vec![17; 257]),
    ];
    let changed =
        |(number, sheet): (u32, Vec<u8>)| fault(order, number, "sheet", move |call| call.sheet.clone_from(&sheet));
    wrong.into_iter().map(changed).collect()
}

/// N outside 1 to 1,024, and N that a number of 24 bits, the greatest top or a point of 12 bits does not allow: `wraps` is
/// the order of 4.
fn returns(order: u32, wraps: u32) -> Vec<Fault> {
    let wrong = [(0, 2), (1025, 2), (65_537, 2), (u32::MAX, 2), (129, 4), (1024, 4)];
    let changed = |(returns, number): (u32, u32)| {
        let order = if number == 2 { order } else { wraps };
        fault(order, number, "returns", move |call| call.returns = returns)
    };
    wrong.map(changed).into()
}

/// Sheet to circuit: the sheet, 14.
pub fn circuit(suite: &mut Suite) -> Verdict {
    suite.seed(1);
    let sheet = vec![17, 18, 3, 19, 4, 20, 5, 0, 0, 0, 21, 2];
    let room = second::circuit(&sheet, usize::MAX).map_or(0, |bytes| bytes.len());
    let base = Call { sheet, room, ..Call::of(Function::Circuit) };
    let mut faults = sheets(0);
    faults.extend(rooms(1, room));
    alone_and_in_pairs(suite, &base, &faults)
}

/// Values that are refused 5: of a sheet of a yes/no, a choice of 3, a number of 4 bits, one up to 5 and a point of 2 bits.
fn values(order: u32) -> Vec<Fault> {
    let value =
        |at: usize, wrong: u32| fault(order, 5, "values", move |call| put_word(&mut call.values, 4 * at, wrong.into()));
    let length = |length: usize| fault(order, 5, "values", move |call| call.values.resize(length, 0));
    let mut faults = vec![value(0, 2), value(0, 256), value(1, 3), value(2, 16), value(2, u32::MAX)];
    faults.extend([6, 7, 8, 261, u32::MAX].map(|wrong| value(3, wrong)));
    faults.extend([16, 17, 256, 271, u32::MAX].map(|wrong| value(4, wrong)));
    faults.extend([0, 16, 19, 21, 24].map(length));
    faults
}

/// Random elements that are refused 6.
fn randoms(order: u32, count: usize) -> Vec<Fault> {
    let element =
        |at: usize, wrong: u64| fault(order, 6, "random", move |call| put_word(&mut call.random, 4 * at, wrong));
    let length = |length: usize| fault(order, 6, "random", move |call| call.random.resize(length, 0));
    let mut faults = vec![element(0, P), element(count - 1, P), element(count / 2, u64::from(u32::MAX))];
    faults.extend([0, 4 * count - 4, 4 * count - 1, 4 * count + 1, 4 * count + 4].map(length));
    faults
}

/// Making: the sheet, S, 5, 6, 14.
pub fn make(suite: &mut Suite) -> Verdict {
    let mut rng: Rng = suite.seed(2);
    let bytes = vec![17, 18, 3, 19, 4, 20, 5, 0, 0, 0, 21, 2];
    let sheet = Sheet::read(&bytes).map_err(|number| format!("refused {number}"))?;
    let count = 2 * sheet.share_elements() + 4;
    let base = Call {
        sheet: bytes,
        servers: 3,
        id: 7,
        values: gen::values(&mut rng, &sheet),
        random: gen::elements(&mut rng, count),
        room: 3 * sheet.share_length(),
        ..Call::of(Function::Make)
    };
    let mut faults = sheets(0);
    faults.extend(servers(1));
    faults.extend(values(2));
    faults.extend(randoms(3, count));
    faults.extend(rooms(4, base.room));
    alone_and_in_pairs(suite, &base, &faults)
}

/// Seeds that are refused 6: not two of them.
fn seeds(order: u32) -> Vec<Fault> {
    let length = |length: usize| fault(order, 6, "seeds", move |call| call.seeds.resize(length, 0));
    [0, 1, 32, 63, 65, 96, 224, 2 * 32 + 4].map(length).into()
}

/// Making from seeds: the sheet, S, 5, 6, 14.
pub fn make_seeded(suite: &mut Suite) -> Verdict {
    let mut rng: Rng = suite.seed(18);
    let bytes = vec![17, 18, 3, 19, 4, 20, 5, 0, 0, 0, 21, 2];
    let sheet = Sheet::read(&bytes).map_err(|number| format!("refused {number}"))?;
    let base = Call {
        sheet: bytes,
        servers: 3,
        id: 7,
        values: gen::values(&mut rng, &sheet),
        random: gen::elements(&mut rng, 4),
        seeds: rng.bytes(64),
        room: sheet.share_length() + 2 * 38,
        ..Call::of(Function::MakeSeeded)
    };
    let mut faults = sheets(0);
    faults.extend(servers(1));
    faults.extend(values(2));
    faults.extend(randoms(3, 4));
    faults.extend(seeds(3));
    faults.extend(rooms(4, base.room));
    alone_and_in_pairs(suite, &base, &faults)?;
    // Another S within its limits: the seeds are too few or too many.
    for servers in [2, 4, 5, 8] {
        suite.number(&Call { servers, ..base.clone() }, 6)?;
    }
    Ok(())
}

/// Three totals messages of the sheets 17, 18 3, 19 24 and 17, 18 3, 20 16,777,215 and 17, 21 12.
fn totals(count: u32) -> Vec<u8> {
    let message = |server: u8| {
        let mut message = vec![36, server];
        message.extend(count.to_le_bytes());
        message.extend([1, 0, 0, 0].repeat(5));
        message
    };
    [message(0), message(1), message(2)].concat()
}

/// Totals messages at fault, 26 bytes each.
fn joined_totals(order: u32) -> Vec<Fault> {
    let byte = |place: &'static str, at: usize, new: u8| fault(order, 12, place, move |call| call.message[at] = new);
    let mut faults =
        vec![byte("kind 0", 0, 35), byte("kind 2", 52, 34), byte("server 0", 1, 1), byte("server 1", 27, 0)];
    faults.extend([byte("server 2", 53, 3), byte("count", 2, 2), byte("count", 28, 9), byte("count", 57, 1)]);
    let over = |count: u32| {
        fault(order, 12, "count", move |call| {
            (0..3).for_each(|k| put_word(&mut call.message, 26 * k + 2, count.into()))
        })
    };
    faults.extend([1025, 65_536, u32::MAX].map(over));
    let element = |at: usize| fault(order, 12, "element", move |call| put_word(&mut call.message, at, P));
    faults.extend([6, 22, 58, 74].map(element));
    let resized = |length: usize| fault(order, 12, "length", move |call| call.message.resize(length, 0));
    faults.extend([0, 26, 52, 77, 79, 104].map(resized));
    faults
}

/// Joining: S, the sheet, N, 4, 12, 14.
pub fn join(suite: &mut Suite) -> Verdict {
    suite.seed(11);
    for sheet in [vec![17, 18, 3, 19, 24], vec![17, 18, 3, 20, 255, 255, 255, 0], vec![17, 21, 12]] {
        let base = Call { servers: 3, sheet, returns: 128, message: totals(3), room: 20, ..Call::of(Function::Join) };
        let mut faults = servers(0);
        faults.extend(sheets(1));
        faults.extend(returns(2, 3));
        faults.extend(rooms(5, 20));
        faults.extend(joined_totals(4));
        alone_and_in_pairs(suite, &base, &faults)?;
        // A count of N is no fault, one more is; a count of 0 with totals that are not 0 is none.
        suite.number(&Call { message: totals(128), ..base.clone() }, 0)?;
        suite.number(&Call { message: totals(129), ..base.clone() }, 12)?;
        suite.number(&Call { message: totals(0), ..base }, 0)?;
    }
    Ok(())
}

/// Columns that are none, or not of points, on a sheet of a yes/no and a point.
fn columns(order: u32) -> Vec<Fault> {
    let wrong = [0, 1, 3, 4, 256, 258, 65_538, u32::MAX];
    wrong.map(|number| fault(order, 2, "column", move |call| call.column = number)).into()
}

/// A line: S, the sheet, N, 4, the column, 12, 18.
pub fn line(suite: &mut Suite) -> Verdict {
    suite.seed(17);
    // n = 3 and the points (1, 1), (2, 3), (3, 5): sums 6, 14, 9, 22, of which server 0 has all but 2 each.
    let mut message = totals(3);
    for (at, total) in [(10, 4), (14, 12), (18, 7), (22, 20)] {
        put_word(&mut message, at, total);
    }
    let (sheet, returns, column) = (vec![17, 21, 12], 128, 2);
    let base = Call { servers: 3, sheet, returns, message, column, ..Call::of(Function::Line) };
    suite.gives(&base, found(6, 12, -6))?;
    let mut faults = servers(0);
    faults.extend(sheets(1));
    faults.extend(self::returns(2, 3));
    faults.extend(columns(4));
    // Sxx = 12 with Sx = 6 and n = 3.
    faults.push(fault(6, 18, "sum", |call| put_word(&mut call.message, 14, 10)));
    faults.extend(joined_totals(5));
    alone_and_in_pairs(suite, &base, &faults)?;
    let mut level = base.clone();
    level.message = totals(129);
    suite.number(&level, 12)?;
    level.message = totals(3);
    suite.number(&level, 18)
}
