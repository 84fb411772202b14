// Results: each kernel on seeded inputs against the Rust loop and against plain arithmetic with remainders, and its
// refusals, which must change nothing.
use crate::{kernels, loops, Numbers};

const P: u64 = loops::P as u64;
const CASES: usize = 1000;

struct Count {
    passed: usize,
    failed: usize,
}

impl Count {
    fn expect(&mut self, name: &str, ok: bool) {
        if ok {
            self.passed += 1;
        } else {
            self.failed += 1;
            println!("{name}: a result differs");
        }
    }
}

fn power(s: u64, mut k: u64) -> u64 {
    let (mut square, mut r) = (s, 1);
    while k > 0 {
        if k % 2 == 1 {
            r = r * square % P;
        }
        square = square * square % P;
        k /= 2;
    }
    r
}

// The product of x - k over the k in a range.
fn difference_product(x: u32, k: std::ops::Range<usize>) -> u32 {
    k.fold(1, |acc, k| acc * ((x as u64 + P - k as u64) % P) % P) as u32
}

fn plain_inner(a: &[u32], b: &[u32]) -> u32 {
    a.iter().zip(b).fold(0, |acc, (&x, &y)| (acc + (x as u64 % P) * (y as u64 % P)) % P) as u32
}

fn inner(count: &mut Count, numbers: &mut Numbers, a: &[u32], b: &[u32]) {
    let was = numbers.next() as u32;
    let (mut ours, mut rust) = (was, was);
    let fits = a.len() == b.len() && a.len() <= loops::LONGEST;
    let want = (!fits as u32, if fits { plain_inner(a, b) } else { was });
    let answers = (kernels::inner(a, b, &mut ours), loops::inner(a, b, &mut rust));
    count.expect("inner", (answers.0, ours) == want && (answers.1, rust) == want);
}

// Runs a kernel and the loop in Rust on copies of one buffer of n numbers. Where `fits` they have to write `entry` at each
// place, and else to refuse.
fn table(
    count: &mut Count,
    numbers: &mut Numbers,
    name: &str,
    n: usize,
    fits: bool,
    kernel: impl Fn(&mut [u32]) -> u32,
    same: impl Fn(&mut [u32]) -> u32,
    entry: impl Fn(usize) -> u32,
) {
    let was = numbers.words(n);
    let (mut ours, mut rust) = (was.clone(), was.clone());
    let want = (!fits as u32, if fits { (0..n).map(entry).collect() } else { was });
    let answers = (kernel(&mut ours), same(&mut rust));
    count.expect(name, (answers.0, ours) == want && (answers.1, rust) == want);
}

pub fn run() -> bool {
    let mut count = Count { passed: 0, failed: 0 };
    let mut numbers = Numbers(1);
    for _ in 0..CASES {
        let n = numbers.below(70) as usize;
        let m = if numbers.below(8) == 0 { numbers.below(70) as usize } else { n };
        let (a, b) = (numbers.words(n), numbers.words(m));
        inner(&mut count, &mut numbers, &a, &b);
        let x = if numbers.below(8) == 0 { (P + numbers.below(P)) as u32 } else { numbers.element() };
        let fits = (x as u64) < P;
        let c = &mut count;
        let s = &mut numbers;
        table(c, s, "ascending", n, fits, |o| kernels::ascending(x, o), |o| loops::ascending(x, o), |j| difference_product(x, 0..j));
        table(c, s, "powers", n, fits, |o| kernels::powers(x, o), |o| loops::powers(x, o), |j| power(x as u64, j as u64) as u32);
    }
    // the longest inner product of the largest numbers, and one member more
    for n in [65536, 65537] {
        inner(&mut count, &mut numbers, &vec![u32::MAX; n], &vec![u32::MAX; n]);
    }
    println!("{} passed, {} failed", count.passed, count.failed);
    count.failed == 0
}
