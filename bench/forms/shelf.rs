// Messages stored by place and brought back: libpool.a and the same loops in Rust, which look at no index either.
use crate::{c, timing};
use std::hint::black_box;

type Store = fn(u32, u32, &[u8], &mut [u8], &mut usize) -> u32;

const TILE: usize = 64;

fn our_shelve(r: u32, w: u32, run: &[u8], out: &mut [u8], written: &mut usize) -> u32 {
    unsafe { c::pool_shelve(r, w, run.as_ptr(), run.len(), out.as_mut_ptr(), out.len(), written) }
}

fn our_unshelve(r: u32, w: u32, run: &[u8], out: &mut [u8], written: &mut usize) -> u32 {
    unsafe { c::pool_unshelve(r, w, run.as_ptr(), run.len(), out.as_mut_ptr(), out.len(), written) }
}

fn refusal(r: u32, w: u32, run: &[u8], out: &[u8]) -> u32 {
    if !(1..=64).contains(&r) || !(1..=4096).contains(&w) {
        return 2;
    }
    let size = (r * w) as usize;
    match () {
        _ if run.len() != size => 19,
        _ if out.len() < size => 14,
        _ => 0,
    }
}

// The steps from message to message and from byte to byte, in the run and in the buffer.
#[inline(always)]
fn store(r: u32, w: u32, run: &[u8], out: &mut [u8], written: &mut usize, read: [usize; 2], write: [usize; 2]) -> u32 {
    let refused = refusal(r, w, run, out);
    if refused != 0 {
        return refused;
    }
    let (r, w) = (r as usize, w as usize);
    for from in (0..w).step_by(TILE) {
        for i in 0..r {
            for j in from..w.min(from + TILE) {
                // both places are below r * w, the length of the run and at most that of the buffer
                unsafe { *out.get_unchecked_mut(write[0] * i + write[1] * j) = *run.get_unchecked(read[0] * i + read[1] * j) };
            }
        }
    }
    *written = run.len();
    0
}

#[inline(never)]
fn shelve(r: u32, w: u32, run: &[u8], out: &mut [u8], written: &mut usize) -> u32 {
    store(r, w, run, out, written, [w as usize, 1], [1, r as usize])
}

#[inline(never)]
fn unshelve(r: u32, w: u32, run: &[u8], out: &mut [u8], written: &mut usize) -> u32 {
    store(r, w, run, out, written, [1, r as usize], [w as usize, 1])
}

fn bytes(n: usize) -> Vec<u8> {
    (0..n).map(|k| (k * 7 + k / 251) as u8).collect()
}

pub fn speed() {
    println!("{:<17} {:<17} {:>11} {:>11} {:>7}", "call", "messages", "ours, ns", "Rust, ns", "ratio");
    for (r, w) in [(64, 4096), (64, 3102), (64, 42), (8, 4096), (1, 42)] {
        let run = bytes((r * w) as usize);
        for (name, ours, rust) in [("shelve", our_shelve as Store, shelve as Store), ("unshelve", our_unshelve, unshelve)] {
            let (mut out, mut same) = (vec![0; run.len()], vec![0; run.len()]);
            let call = |f: Store, out: &mut [u8]| {
                let mut written = 0;
                assert!(f(black_box(r), black_box(w), black_box(&run), black_box(out), &mut written) == 0);
            };
            let [ours, rust] = timing::compare(&mut || call(ours, &mut out), &mut || call(rust, &mut same));
            println!("{name:<17} {:<17} {ours:>11.1} {rust:>11.1} {:>7.2}", format!("{r} of {w}"), ours / rust);
        }
    }
}

fn answer(f: Store, r: u32, w: u32, run: &[u8], room: usize) -> (u32, usize, Vec<u8>) {
    let (mut out, mut written) = (vec![0xa5; room], 9);
    (f(r, w, run, &mut out, &mut written), written, out)
}

// Limits and tiles on both sides, runs and rooms around the length; each run that is stored comes back, and byte j of
// message i stands where the paper says.
pub fn check(expect: &mut dyn FnMut(bool, &str)) {
    let widths = [0, 1, 2, 42, 63, 64, 65, 127, 128, 129, 4095, 4096, 4097, 65536, u32::MAX];
    for r in [0, 1, 2, 3, 63, 64, 65, 256, 65536, u32::MAX] {
        for w in widths {
            let size = (r as u64 * w as u64).min(70_000_000) as usize;
            let sizes = if size > 300_000 { vec![0, 64] } else { vec![size, size + 1, size.saturating_sub(1), 0] };
            for (n, m) in sizes.iter().flat_map(|n| sizes.iter().map(move |m| (*n, *m))) {
                let run = bytes(n);
                let stored = answer(our_shelve, r, w, &run, m);
                let name = format!("{r} messages of {w} bytes, {n} in a buffer of {m}");
                expect(stored == answer(shelve, r, w, &run, m), &name);
                expect(answer(our_unshelve, r, w, &run, m) == answer(unshelve, r, w, &run, m), &name);
                if stored.0 == 0 {
                    let (r1, w1) = (r as usize, w as usize);
                    expect((0..n).all(|k| stored.2[r1 * (k % w1) + k / w1] == run[k]), &name);
                    expect(answer(our_unshelve, r, w, &stored.2[..n], n).2 == run, &name);
                }
            }
        }
    }
}
