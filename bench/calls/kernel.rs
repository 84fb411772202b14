// Sharing and making against the bare arithmetic: interpolation in separate passes, inverses, running products, powers
// and inner products, by loops in Rust on lent slices (passes.rs, and those of field/loops.rs that the proved kernels are
// measured against). It is a bar to hold the calls to, not what they do: the library need not work out what it has as
// constants, and may take passes together. Left out are the products member by member and everything on bytes.
use crate::series::{calls_for, series, Call};
use crate::setting::{Setting, ROOM};
use crate::tables::Ours;
use crate::{loops, passes, speed, timing};
use std::hint::black_box;

// Work space, as long as the largest sheet asks.
struct Space {
    inverses: Vec<u32>,
    products: Vec<u32>,
    up: Vec<u32>,
    down: Vec<u32>,
    given: Vec<u32>,
}

impl Space {
    fn new() -> Space {
        let given = (0..1024u32).map(|i| i.wrapping_mul(0x9e3779b9) % 2147483647).collect();
        let empty = || vec![0; 1024];
        Space { inverses: empty(), products: empty(), up: empty(), down: empty(), given }
    }
}

fn inner(a: &[u32], b: &[u32]) {
    let mut out = 0;
    assert!(loops::inner(black_box(a), b, &mut out) == 0);
    black_box(out);
}

// The inverses of the factorials below n, from the inverses of 1 to m.
fn factorials(w: &mut Space, m: usize, n: usize) {
    assert!(passes::inverses(&mut w.inverses[..m]) == 0);
    assert!(passes::running_products(&w.inverses[..m], &mut w.products[..n]) == 0);
}

// The products before and after each of n points.
fn basis(w: &mut Space, r: u32, n: usize) {
    assert!(loops::ascending(r, &mut w.up[..n]) == 0);
    assert!(passes::descending(r, &mut w.down[..n]) == 0);
}

// Taking a share: f and g through M + 1 points, h through 2M + 1, and K tests.
fn share(w: &mut Space, m: usize, k: usize, r: u32, s: u32) {
    factorials(w, 2 * m, 2 * m + 1);
    basis(w, r, m + 1);
    inner(&w.given[..m + 1], &w.up[..m + 1]);
    inner(&w.given[..m + 1], &w.down[..m + 1]);
    basis(w, r, 2 * m + 1);
    inner(&w.given[..2 * m + 1], &w.up[..2 * m + 1]);
    assert!(loops::powers(s, &mut w.up[..k]) == 0);
    inner(&w.given[..k], &w.up[..k]);
}

// Making a return: f and g at the points M + 1 to 2M, an inner product of M + 1 members for each value.
fn make(w: &mut Space, m: usize) {
    factorials(w, 2 * m, m + 1);
    assert!(loops::ascending(m as u32 + 1, &mut w.up[..m + 2]) == 0);
    for i in 0..m {
        inner(&w.given[..m + 1], &w.inverses[i..i + m + 1]);
        inner(&w.given[1..m + 2], &w.inverses[i..i + m + 1]);
    }
}

// Nanoseconds of a share, and of its kernel, over as many calls.
fn of_share(x: &Setting) -> [f64; 2] {
    let mut w = Space::new();
    let mut kernel = || share(&mut w, x.gates, x.tests, x.r as u32, x.s as u32);
    timing::medians([&mut || series::<Ours>(x, Call::Share, 0), &mut || timing::time(&mut kernel, calls_for(x))])
}

// Nanoseconds of making, and of its kernel.
fn of_make(x: &Setting) -> [f64; 2] {
    let (mut w, mut out) = (Space::new(), vec![0; ROOM]);
    timing::compare(&mut || speed::our_make(x, &mut out), &mut || make(&mut w, x.gates))
}

pub fn run(settings: &[Setting]) {
    let two = settings.iter().filter(|x| x.servers == 2);
    speed::table(two, ["ours", "kernel"], &[("share", &of_share), ("make", &of_make)]);
}
