//! Calls on up to eight returns, mixed: each return's messages and verdict are those of the return alone on tables that
//! were opened the same. Alone its round messages stand in server order, in the mix in random ones.

use second::field;
use second::gen::{self, Origin, Return, Rng};
use second::Sheet;

use crate::calls::{plain, Call, Function};
use crate::layout::{read, words, Slot, AWAITS_ENTRY, SLOTS};
use crate::lines;
use crate::orders::shuffled;
use crate::pools::Pool;
use crate::reference::{ONE_BYTES, TWO_BYTES};
use crate::suite::{Suite, Verdict};
use crate::tops::{largest_sheet, longest_sheet};

/// The calls that a return meets at every server, one phase after the other.
#[derive(Clone, Copy, Debug, PartialEq, Eq)]
enum Phase {
    Share,
    One,
    Two,
    Enter,
    Drop,
}

/// What one server has of a return that waits: its record and the numbers of its place.
type Held = (Slot, Vec<u32>);

/// What a phase gives at one server: the message or the verdict, and what is held after it.
type Given = (Vec<u8>, Vec<u64>, Option<Held>);

/// A return and what its calls give alone.
struct Course {
    given: Return,
    /// The phases with what they give at each server.
    phases: Vec<(Phase, Vec<Given>)>,
    /// What its entered shares add up to; `None` where it is not entered.
    totals: Option<Vec<u64>>,
    /// The phase that it is in, and the servers that this phase has still to call.
    now: usize,
    left: Vec<usize>,
}

fn held(pool: &Pool, server: usize, id: u32) -> Result<Option<Held>, String> {
    let parts = &pool.tables[server];
    let table = read(parts)?;
    Ok(parts.record(id).map(|record| (parts.slots[record], table.place(parts, record).to_vec())))
}

/// The joined messages of a phase.
fn joined(given: &[Given]) -> Vec<u8> {
    given.iter().flat_map(|(message, _, _)| message.clone()).collect()
}

/// The call of a phase at a server; `last` is what the phase before gave.
fn call(given: &Return, phase: Phase, server: usize, last: &[Given]) -> Call {
    let (id, message) = (given.id, joined(last));
    match phase {
        Phase::Share => {
            let message = given.shares[server].clone();
            Call { message, r: given.r, s: given.s, room: ONE_BYTES, ..Call::of(Function::Share) }
        }
        Phase::One => Call { id, message, room: TWO_BYTES, ..Call::of(Function::RoundOne) },
        Phase::Two => Call { id, message, ..Call::of(Function::RoundTwo) },
        Phase::Enter => Call { id, ..Call::of(Function::Enter) },
        Phase::Drop => Call { id, ..Call::of(Function::Drop) },
    }
}

/// A call of the mix: joined messages, where it has any, stand in a random order.
fn mixed_call(rng: &mut Rng, given: &Return, phase: Phase, server: usize, last: &[Given]) -> Call {
    let call = call(given, phase, server, last);
    match phase {
        Phase::One | Phase::Two => Call { message: shuffled(rng, &call.message), ..call },
        Phase::Share | Phase::Enter | Phase::Drop => call,
    }
}

/// Carries out the call of a phase at a server of a pool.
fn step(suite: &mut Suite, pool: &mut Pool, server: usize, given: &Return, call: Call) -> Result<Given, String> {
    let done = pool.at(suite, server, call)?;
    Ok((done.bytes, done.numbers, held(pool, server, given.id)?))
}

/// Plays a return alone on fresh tables.
fn alone(suite: &mut Suite, rng: &mut Rng, pool: &Pool, given: Return) -> Result<Course, String> {
    let mut fresh = Pool::open_from(suite, pool.servers, &pool.bytes, pool.returns, pool.least)?;
    let plan: &[Phase] = match rng.below(10) {
        0 => &[Phase::Share, Phase::Drop],
        1 => &[Phase::Share, Phase::One, Phase::Drop],
        2 => &[Phase::Share, Phase::One, Phase::Two, Phase::Drop],
        _ => &[Phase::Share, Phase::One, Phase::Two, Phase::Enter],
    };
    let mut phases: Vec<(Phase, Vec<Given>)> = Vec::new();
    for &phase in plan {
        let last = phases.last().map_or(Vec::new(), |(_, given)| given.clone());
        // A rejected return is decided: nothing is held of it.
        if last.iter().any(|(_, _, held)| held.is_none()) {
            break;
        }
        let mut gives = Vec::new();
        for server in 0..fresh.tables.len() {
            let call = call(&given, phase, server, &last);
            gives.push(step(suite, &mut fresh, server, &given, call)?);
        }
        phases.push((phase, gives));
    }
    let totals = totals(&fresh)?;
    Ok(Course { given, phases, totals, now: 0, left: Vec::new() })
}

/// What the tables of a return that was played alone add up to, where it was entered.
fn totals(pool: &Pool) -> Result<Option<Vec<u64>>, String> {
    let mut sums = vec![0; pool.sheet.published()];
    let mut entered = 0;
    for parts in &pool.tables {
        let table = read(parts)?;
        entered += table.entered;
        for (sum, share) in sums.iter_mut().zip(words(&parts.bytes, table.at.totals, pool.sheet.published())) {
            *sum = field::add(*sum, share);
        }
    }
    Ok((entered == pool.tables.len()).then_some(sums))
}

/// A return of any origin under an id that may be near another.
fn any_return(rng: &mut Rng, sheet: &Sheet, servers: u32, number: u32) -> Return {
    let origin = match rng.below(10) {
        0..=4 => Origin::Honest,
        5 => Origin::Altered,
        6 => Origin::FalseEntries,
        7 => Origin::Forged,
        8 => Origin::Lucky,
        _ => Origin::LuckyTriple,
    };
    let id = number << rng.pick([0, 8, 16, 24]) | number;
    Return::mixed(rng, sheet, servers, id, origin)
}

/// A call that is refused, on a table as the mix left it: a share, a round, an entry or a drop that is not its turn.
fn noise(suite: &mut Suite, rng: &mut Rng, pool: &Pool, server: usize, courses: &[Course]) -> Verdict {
    let (one, two) = (&courses[rng.index(courses.len())], &courses[rng.index(courses.len())]);
    let phase = rng.pick([Phase::Share, Phase::One, Phase::Two, Phase::Enter, Phase::Drop]);
    let from = rng.index(two.phases.len());
    let mut call = mixed_call(rng, &two.given, phase, server, &two.phases[from].1);
    if rng.chance(50) {
        call.id = one.given.id;
    }
    if rng.chance(10) {
        call = Call { room: pool.sheet.closing_length(), ..Call::of(Function::Close) };
    }
    call.table = pool.tables[server].clone();
    // What the mix has still to do is left to it.
    if suite.reference(&call)?.is_err() {
        suite.agrees(&call)?;
    }
    Ok(())
}

/// A return's next call in the mix; gives whether more are to come.
fn advance(suite: &mut Suite, rng: &mut Rng, pool: &mut Pool, course: &mut Course) -> Result<bool, String> {
    if course.left.is_empty() {
        course.left = (0..pool.tables.len()).collect();
        rng.shuffle(&mut course.left);
    }
    let Some(server) = course.left.pop() else {
        return Ok(false);
    };
    let (phase, gives) = &course.phases[course.now];
    let last = course.now.checked_sub(1).map_or(&[][..], |before| &course.phases[before].1);
    let call = mixed_call(rng, &course.given, *phase, server, last);
    let mixed = step(suite, pool, server, &course.given, call.clone())?;
    if mixed != gives[server] {
        let text = format!("{mixed:?} among others\nmust be {:?} as alone", gives[server]);
        return Err(suite.failure(&call, &text));
    }
    let table = &pool.tables[server];
    let crowded = table.waiting() == SLOTS && table.slots.iter().any(|slot| slot.stage == AWAITS_ENTRY);
    suite.crowded += u64::from(crowded);
    course.now += usize::from(course.left.is_empty());
    Ok(course.now < course.phases.len())
}

/// Plays returns mixed, at most so many of them under way at once. The closing messages join to the sums of what each
/// entered return adds up to alone.
fn play(suite: &mut Suite, rng: &mut Rng, pool: &mut Pool, count: u32, most: usize) -> Verdict {
    let mut courses = Vec::new();
    for number in 0..count {
        let given = any_return(rng, &pool.sheet, pool.servers, number);
        courses.push(alone(suite, rng, pool, given)?);
    }
    let (mut under_way, mut to_come): (Vec<usize>, Vec<usize>) = (Vec::new(), (0..courses.len()).collect());
    while !under_way.is_empty() || !to_come.is_empty() {
        if under_way.len() < most && (under_way.is_empty() || rng.chance(40)) {
            under_way.extend(to_come.pop());
        }
        if rng.chance(30) {
            let server = rng.index(pool.tables.len());
            noise(suite, rng, pool, server, &courses)?;
        }
        let at = rng.index(under_way.len());
        if !advance(suite, rng, pool, &mut courses[under_way[at]])? {
            under_way.swap_remove(at);
        }
    }
    ended(suite, pool, &courses)
}

/// A mix by its seed: 1 to 14 returns at 2 to 8 servers, any Q.
pub fn mix(suite: &mut Suite, seed: u64) -> Verdict {
    let mut rng = suite.seed(seed ^ 0x313E_D000);
    let entries = rng.pick([1, 4, 12, 12, 60]);
    let bytes = gen::sheet(&mut rng, entries);
    let largest = Sheet::read(&bytes).map_or(1, |sheet| gen::largest_limit(&sheet));
    let servers = rng.between(2, 8) as u32;
    let count = rng.between(1, 14) as u32;
    let returns = rng.pick([count, count + 1, 40, largest]);
    let few = rng.between(1, u64::from(count.div_ceil(2))) as u32;
    let least = rng.pick([1, few, few, count]);
    let mut pool = Pool::open_from(suite, servers, &bytes, returns, least)?;
    let most = rng.pick([2, 5, SLOTS, SLOTS]);
    play(suite, &mut rng, &mut pool, count, most)
}

/// Eight returns waited often, some of them for entry.
pub fn often(suite: &Suite) -> Verdict {
    match suite.crowded {
        0..400 => Err(format!("after {} calls eight waited, some for entry", suite.crowded)),
        _ => Ok(()),
    }
}

/// Eight and more returns of the largest sheets.
pub fn large(suite: &mut Suite) -> Verdict {
    let sheets = [(2, vec![17; 256]), (3, [18, 64].repeat(4)), (2, longest_sheet()), (2, largest_sheet())];
    let points = [(2, [21, 1].repeat(42)), (3, vec![21, 12, 17, 21, 7])];
    for (number, (servers, sheet)) in sheets.into_iter().chain(points).enumerate() {
        let mut rng = suite.seed(256 + number as u64);
        let mut pool = Pool::open(suite, servers, &sheet, 10)?;
        play(suite, &mut rng, &mut pool, 10, SLOTS)?;
    }
    Ok(())
}

/// All tables close and join to the entered returns, or refuse to close where these are fewer than Q.
fn ended(suite: &mut Suite, pool: &mut Pool, courses: &[Course]) -> Verdict {
    let mut totals = vec![0; pool.sheet.published()];
    let entered: Vec<&Vec<u64>> = courses.iter().filter_map(|course| course.totals.as_ref()).collect();
    for (total, k) in totals.iter_mut().zip(0..) {
        *total = field::sum(entered.iter().map(|totals| totals[k]));
    }
    if entered.len() < pool.least as usize {
        return pool.close_refused(suite, 15);
    }
    let join = pool.close(suite)?;
    let bytes = totals.iter().flat_map(|&total| (total as u32).to_le_bytes()).collect();
    suite.gives(&join, plain(vec![entered.len() as u64], bytes))?;
    lines::of_columns(suite, &join, entered.len() as u64, &totals)
}
