// What every call on a table does first: it looks the table over, since a table that is lent may be unsound (refusal 11).
// Timed by a drop of an id that does not wait, which is refused right after it: with none, one and eight returns waiting.
use crate::series::waiting;
use crate::setting::Setting;
use crate::tables::{Ours, Table};
use crate::timing;
use std::hint::black_box;

fn times(x: &Setting) -> [f64; 3] {
    let mut tables = [0, 1, 8].map(|n| waiting::<Ours>(x, 0, n));
    let [none, one, eight] = &mut tables;
    let look = |t: &mut Ours| assert!(black_box(t).drop(7) == Err(11));
    let calls = 512;
    timing::medians([
        &mut || timing::time(&mut || look(none), calls),
        &mut || timing::time(&mut || look(one), calls),
        &mut || timing::time(&mut || look(eight), calls),
    ])
}

pub fn run(settings: &[Setting]) {
    println!("nanoseconds to look a table over, by the returns that wait");
    println!("{:<14} {:>4} {:>11} {:>11} {:>11}", "sheet", "M", "none", "one", "eight");
    for x in settings.iter().filter(|x| x.servers == 2) {
        let [none, one, eight] = times(x);
        println!("{:<14} {:>4} {none:>11.1} {one:>11.1} {eight:>11.1}", x.name, x.gates);
    }
}
