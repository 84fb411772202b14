//! Calls on several returns, mixed: each return fares as it would alone.

mod common;

use std::collections::{BTreeMap, BTreeSet};

use common::lent_table::Lent;
use common::twins::Twins;
use common::*;
use second::gen::{self, Answer, Call, Origin, Return, Rng, Script, Server, Step};
use second::{open, Sheet, Stage};

/// Some calls with their answers.
type Course = Vec<(Call, Answer)>;

/// A return's calls at server `own`, and the answers of a table that takes nothing else. The
/// other servers' messages are those of tables that take nothing else either.
fn alone(setting: &Setting, given: &Return, rng: &mut Rng) -> Course {
    let id = given.id;
    let Setting {
        servers,
        ref sheet,
        limit,
        least,
        ..
    } = *setting;
    let open = |own| open(servers, own, sheet, limit, least).unwrap();
    let mut tables: Vec<_> = (0..servers).map(open).collect();
    let mut course = Course::new();
    let share = |own| share_of(given, own);
    let joined = everywhere(setting.own, &mut tables, &mut course, share);
    // Some are dropped in the first wait, some in the second, some when they are accepted.
    let last = rng.below(8);
    if last > 0 {
        let one = Call::RoundOne {
            id,
            joined,
            room: TWO_BYTES,
        };
        let joined = everywhere(setting.own, &mut tables, &mut course, |_| one.clone());
        if last > 1 {
            let two = Call::RoundTwo { id, joined };
            everywhere(setting.own, &mut tables, &mut course, |_| two.clone());
        }
    }
    let end = match tables[0].stage(id) {
        None => return course,
        Some(Stage::AwaitsEntry) if last > 2 => Call::Enter { id },
        Some(_) => Call::Drop { id },
    };
    everywhere(setting.own, &mut tables, &mut course, |_| end.clone());
    course
}

/// A return's share at a server.
fn share_of(given: &Return, own: usize) -> Call {
    Call::Share {
        message: given.shares[own].clone(),
        r: given.r,
        s: given.s,
        room: ONE_BYTES,
    }
}

/// A call at every server; notes that of one server, and gives the messages, joined.
fn everywhere<T: Server>(
    own: u32,
    tables: &mut [T],
    course: &mut Course,
    call: impl Fn(usize) -> Call,
) -> Vec<u8> {
    let mut joined = Vec::new();
    for (server, table) in tables.iter_mut().enumerate() {
        let call = call(server);
        let answer = table.call(&call);
        assert!(!matches!(answer, Answer::Refused(_)), "{call} {answer}");
        if let Answer::Message(message) = &answer {
            joined.extend(message);
        }
        if server == own as usize {
            course.push((call, answer));
        }
    }
    joined
}

/// What a table is opened with.
struct Setting {
    servers: u32,
    own: u32,
    sheet: Vec<u8>,
    limit: u32,
    least: u32,
}

impl Setting {
    fn random(rng: &mut Rng, max: usize, returns: u32) -> Option<Setting> {
        let servers = rng.between(2, 4) as u32;
        let sheet = gen::sheet(rng, max);
        let most = gen::largest_limit(&Sheet::read(&sheet).unwrap());
        let limit = rng.pick([returns, returns + 1, 1024]).min(most);
        let few = rng.between(1, u64::from(returns)) as u32;
        (limit >= returns).then_some(Setting {
            servers,
            own: rng.below(u64::from(servers)) as u32,
            sheet,
            limit,
            least: rng.pick([1, few, limit]),
        })
    }

    /// Returns of any origin, with the courses that they take alone.
    fn courses(&self, rng: &mut Rng, returns: u32) -> Vec<Course> {
        let sheet = Sheet::read(&self.sheet).unwrap();
        let mut courses = Vec::new();
        for id in 0..returns {
            let origin = rng.pick([
                Origin::Honest,
                Origin::Honest,
                Origin::Altered,
                Origin::Lucky,
                Origin::FalseEntries,
            ]);
            let given = Return::random(rng, &sheet, self.servers, id * 77, origin);
            courses.push(alone(self, &given, rng));
        }
        courses
    }
}

/// The call with its joined messages, if it has any, in another order.
fn shuffled(call: &Call, rng: &mut Rng) -> Call {
    let mut call = call.clone();
    if let Call::RoundOne { joined, .. } | Call::RoundTwo { joined, .. } = &mut call {
        let mut messages: Vec<Vec<u8>> = each_message(joined).map(<[u8]>::to_vec).collect();
        rng.shuffle(&mut messages);
        *joined = messages.concat();
    }
    call
}

/// Mixes courses at one table, each in its order, never more than eight waiting; every answer
/// is the one that it got alone, where the joined messages stood in server order. Then closes,
/// where enough are entered. Gives how many waited at most, and for entry.
fn mixed(setting: &Setting, courses: &[Course], rng: &mut Rng) -> [usize; 2] {
    let Setting {
        servers,
        own,
        ref sheet,
        limit,
        least,
    } = *setting;
    let mut table = Twins::open(servers, own, sheet, limit, least);
    let mut done = vec![0; courses.len()];
    let mut most = [0, 0];
    let left = |done: &[usize]| -> Vec<usize> {
        let places = 0..done.len();
        places.filter(|&i| done[i] < courses[i].len()).collect()
    };
    while !left(&done).is_empty() {
        let open = left(&done);
        let i = open[rng.index(open.len())];
        let (call, answer) = &courses[i][done[i]];
        let call = shuffled(call, rng);
        if done[i] == 0 && table.plain.waiting().len() == 8 {
            assert_eq!(table.call(&call), Answer::Refused(11));
            continue;
        }
        assert_eq!(table.call(&call), *answer, "{call}");
        done[i] += 1;
        let waiting = table.plain.waiting();
        let accepted = |(_, stage): &&(u32, Stage)| *stage == Stage::AwaitsEntry;
        let counts = [waiting.len(), waiting.iter().filter(accepted).count()];
        most = std::array::from_fn(|k| counts[k].max(most[k]));
    }
    let entered = |course: &&Course| course.iter().any(|(_, answer)| *answer == Answer::Entered);
    let entered = courses.iter().filter(entered).count();
    match table.call(&Call::Close { room: ROOM }) {
        Answer::Message(_) => assert!(entered >= least as usize),
        answer => assert!(answer == Answer::Refused(15) && entered < least as usize),
    }
    most
}

/// Eight returns and more, a few hundred times.
#[test]
fn eight_returns_mixed() {
    let mut rng = Rng::new(61);
    let (mut runs, mut full, mut accepted) = (0, 0, 0);
    while runs < 300 {
        let returns = rng.pick([3, 8, 8, 12]);
        let Some(setting) = Setting::random(&mut rng, 10, returns) else {
            continue;
        };
        let courses = setting.courses(&mut rng, returns);
        let most = mixed(&setting, &courses, &mut rng);
        full += usize::from(most[0] == 8);
        accepted += usize::from(most[1] > 2);
        runs += 1;
    }
    assert!(full > 30, "{full} times eight waited");
    assert!(accepted > 30, "{accepted} times three waited for entry");
}

/// The same with sheets of full size, on which a share has up to 774 elements.
#[test]
fn eight_large_returns_mixed() {
    let mut rng = Rng::new(62);
    let points = [21, 1].repeat(42);
    for sheet in [vec![17; 256], longest_sheet(), largest_sheet(), points] {
        let setting = Setting {
            servers: 2,
            own: rng.below(2) as u32,
            sheet,
            limit: 8,
            least: 1,
        };
        let courses = setting.courses(&mut rng, 8);
        mixed(&setting, &courses, &mut rng);
    }
}

/// The id that a call names.
fn named(call: &Call) -> Option<u32> {
    match call {
        Call::Share { message, .. } => Some(id_of(message)),
        Call::RoundOne { id, .. } | Call::RoundTwo { id, .. } => Some(*id),
        Call::Enter { id } | Call::Drop { id } => Some(*id),
        Call::Close { .. } => None,
    }
}

/// Each server's calls that were not refused, by the id that they name.
fn courses(script: &Script) -> BTreeMap<(u32, u32), Course> {
    let mut courses: BTreeMap<(u32, u32), Course> = BTreeMap::new();
    let taken = |step: &&Step| !matches!(step.answer, Answer::Refused(_));
    for step in script.steps.iter().filter(taken) {
        if let Some(id) = named(&step.call) {
            let course = courses.entry((step.server, id)).or_default();
            course.push((step.call.clone(), step.answer.clone()));
        }
    }
    courses
}

/// Scripts of any calls in any order: a return's calls that were not refused, alone in their
/// order on a table opened the same, get the same answers.
#[test]
fn returns_of_scripts_alone() {
    let mut most = BTreeSet::new();
    for seed in 6000..6200 {
        let script = Script::random(seed);
        let Script {
            servers,
            ref sheet,
            limit,
            least,
            ..
        } = script;
        for ((own, id), course) in courses(&script) {
            let mut plain = open(servers, own, sheet, limit, least).unwrap();
            let mut lent = Lent::open(servers, own, sheet, limit, least).unwrap();
            for (call, answer) in &course {
                assert_eq!(plain.call(call), *answer, "seed {seed}, id {id}");
                assert_eq!(lent.call(call), *answer, "seed {seed}, id {id}");
            }
        }
        let mut tables = Twins::of_script(&script);
        for step in &script.steps {
            let table = &mut tables[step.server as usize];
            assert_eq!(table.call(&step.call), step.answer, "seed {seed}");
            most.insert(table.plain.waiting().len());
        }
    }
    assert_eq!(most, (0..=8).collect());
}
