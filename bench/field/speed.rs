// Speed: each kernel and the same loop in Rust on the same input, in turns, and the medians of the rounds.
use crate::{kernels, loops, timing, Numbers};
use std::hint::black_box;

const LENGTHS: [usize; 5] = [2, 25, 257, 513, 4096];
type Call<'a> = &'a mut dyn FnMut(&mut [u32]) -> u32;

// The medians of both, after a comparison of what they write.
fn compare(name: &str, n: usize, size: usize, ours: Call, rust: Call) {
    let mut a = vec![0; size];
    let mut b = vec![0; size];
    assert!(ours(&mut a) == 0 && rust(&mut b) == 0 && a == b, "{name} at length {n}: the results differ");
    let [o, r] = timing::compare(&mut || assert!(ours(black_box(&mut a)) == 0), &mut || assert!(rust(black_box(&mut b)) == 0));
    println!("{name:<17} {n:>6} {o:>11.1} {r:>11.1} {:>7.2}", o / r);
}

pub fn run() {
    println!("CPU: {}; {} rounds in turns, medians", timing::cpu(), timing::ROUNDS);
    println!("{:<17} {:>6} {:>11} {:>11} {:>7}", "kernel", "length", "ours, ns", "Rust, ns", "ratio");
    for n in LENGTHS {
        let mut numbers = Numbers(n as u64);
        let (a, b) = (numbers.words(n), numbers.words(n));
        let (a, b) = (&a[..], &b[..]);
        compare("inner", n, 1, &mut |out| kernels::inner(black_box(a), b, &mut out[0]), &mut |out| {
            loops::inner(black_box(a), b, &mut out[0])
        });
        let x = numbers.element();
        compare("ascending", n, n, &mut |out| kernels::ascending(x, out), &mut |out| loops::ascending(x, out));
        compare("powers", n, n, &mut |out| kernels::powers(x, out), &mut |out| loops::powers(x, out));
    }
}
