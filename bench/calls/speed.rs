// Speed of each call against the same call of the second program, all compiled for any x86-64. A call on a table has two
// others beside it, of the fast form and of the lent form (see tables.rs). The other calls have the fast form's (the
// plain form's where the fast one has none of its own: sheets, circuits, joining, lines). The fast form answers with lists of
// bytes that it allots; allotting and giving back counts, but for a table that is opened, which is given back
// unmeasured. The library and the lent form write into lent buffers.
use crate::series::{series, Call};
use crate::setting::{Setting, FREE, ID, LIMIT, ROOM};
use crate::tables::{Lent, Ours};
use crate::{pool, timing};
use second::{fast, Sheet};
use std::hint::black_box;

// A row for each call and setting: the time on each side, ours first, then the ratio of ours to each other.
pub fn table<'a, const N: usize>(
    settings: impl Iterator<Item = &'a Setting> + Clone,
    sides: [&str; N],
    measured: &[(&str, &dyn Fn(&Setting) -> [f64; N])],
) {
    print!("{:<11} {:<14} {:>4} {:>3}", "call", "sheet", "M", "S");
    sides.iter().for_each(|side| print!(" {:>11}", format!("{side}, ns")));
    sides[1..].iter().for_each(|side| print!(" {:>9}", format!("to {side}")));
    println!();
    for (call, measure) in measured {
        for x in settings.clone() {
            let times = measure(x);
            print!("{call:<11} {:<14} {:>4} {:>3}", x.name, x.gates, x.servers);
            times.iter().for_each(|time| print!(" {time:>11.1}"));
            times[1..].iter().for_each(|other| print!(" {:>9.2}", times[0] / other));
            println!();
        }
    }
}

// So many others wait in the table.
fn on_table(x: &Setting, call: Call, others: u32) -> [f64; 3] {
    let mut ours = || series::<Ours>(x, call, others);
    let mut fast = || series::<fast::Table>(x, call, others);
    let mut lent = || series::<Lent>(x, call, others);
    timing::medians([&mut ours, &mut fast, &mut lent])
}

// Beside the second program's reading of the sheet.
fn sizes(x: &Setting) -> [f64; 2] {
    timing::compare(
        &mut || {
            black_box(pool::sizes(black_box(&x.sheet)).expect("read"));
        },
        &mut || {
            black_box(Sheet::read(black_box(&x.sheet)).expect("read"));
        },
    )
}

fn circuit(x: &Setting) -> [f64; 2] {
    let mut out = vec![0; ROOM];
    timing::compare(
        &mut || {
            black_box(pool::circuit(black_box(&x.sheet), &mut out).expect("written"));
        },
        &mut || {
            black_box(fast::circuit(black_box(&x.sheet), ROOM).expect("written"));
        },
    )
}

fn second_make(x: &Setting) {
    black_box(fast::make(&x.sheet, x.servers, ID, black_box(&x.values), &x.random, ROOM).expect("made"));
}

pub fn our_make(x: &Setting, out: &mut [u8]) {
    black_box(pool::make(&x.sheet, x.servers, ID, black_box(&x.values), &x.random, out).expect("made"));
}

fn make(x: &Setting) -> [f64; 2] {
    let mut out = vec![0; ROOM];
    timing::compare(&mut || our_make(x, &mut out), &mut || second_make(x))
}

fn make_seeded(x: &Setting) -> [f64; 2] {
    let mut out = vec![0; ROOM];
    let free = &x.random[..FREE];
    timing::compare(
        &mut || {
            let values = black_box(&x.values);
            let made = pool::make_seeded(&x.sheet, x.servers, ID, values, free, &x.seeds, &mut out);
            black_box(made.expect("made"));
        },
        &mut || {
            let values = black_box(&x.values);
            black_box(fast::make_seeded(&x.sheet, x.servers, ID, values, free, &x.seeds, ROOM).expect("made"));
        },
    )
}

fn join(x: &Setting) -> [f64; 2] {
    let mut out = vec![0; ROOM];
    timing::compare(
        &mut || {
            black_box(pool::join(x.servers, &x.sheet, LIMIT, black_box(&x.closings), &mut out).expect("joined"));
        },
        &mut || {
            black_box(fast::join(x.servers, &x.sheet, LIMIT, black_box(&x.closings), ROOM).expect("joined"));
        },
    )
}

fn line(x: &Setting) -> [f64; 2] {
    timing::compare(
        &mut || {
            black_box(pool::line(x.servers, &x.sheet, LIMIT, black_box(&x.lines), x.points).expect("a line"));
        },
        &mut || {
            black_box(fast::line(x.servers, &x.sheet, LIMIT, black_box(&x.lines), x.points).expect("a line"));
        },
    )
}

// The sizes of a sheet and its circuit know of no S: they are measured once for a sheet.
pub fn run(settings: &[Setting]) {
    let two = settings.iter().filter(|x| x.servers == 2);
    table(two, ["ours", "fast"], &[("sizes", &sizes), ("circuit", &circuit)]);
    println!();
    table(settings.iter(), ["ours", "fast"], &[("make", &make), ("make seeded", &make_seeded), ("join", &join)]);
    table(settings.iter().filter(|x| x.points > 0), ["ours", "fast"], &[("line", &line)]);
    println!();
    table(
        settings.iter(),
        ["ours", "fast", "lent"],
        &[
            ("open", &|x| on_table(x, Call::Open, 0)),
            ("share", &|x| on_table(x, Call::Share, 0)),
            ("share, seed", &|x| on_table(x, Call::Seed, 0)),
            ("round one", &|x| on_table(x, Call::RoundOne, 0)),
            ("round two", &|x| on_table(x, Call::RoundTwo, 0)),
            ("enter", &|x| on_table(x, Call::Enter, 0)),
            ("drop", &|x| on_table(x, Call::Drop, 0)),
            ("close", &|x| on_table(x, Call::Close, 0)),
        ],
    );
    println!();
    println!("with seven others waiting");
    table(
        settings.iter(),
        ["ours", "fast", "lent"],
        &[
            ("share", &|x| on_table(x, Call::Share, 7)),
            ("round one", &|x| on_table(x, Call::RoundOne, 7)),
            ("round two", &|x| on_table(x, Call::RoundTwo, 7)),
            ("enter", &|x| on_table(x, Call::Enter, 7)),
            ("drop", &|x| on_table(x, Call::Drop, 7)),
        ],
    );
}
