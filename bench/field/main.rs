// Compares the kernels of libkernels.a with the same loops in Rust: their speed, or with --check their results.
mod check;
mod kernels;
mod loops;
mod speed;
#[path = "../timing.rs"]
mod timing;

fn main() {
    let words: Vec<String> = std::env::args().skip(1).collect();
    match words.iter().map(String::as_str).collect::<Vec<_>>()[..] {
        [] => speed::run(),
        ["--check"] => std::process::exit(if check::run() { 0 } else { 1 }),
        _ => {
            eprintln!("usage: bench/run [--check]");
            std::process::exit(2)
        }
    }
}

// Numbers from a seed (SplitMix64): the same in each run.
pub struct Numbers(pub u64);

impl Numbers {
    pub fn next(&mut self) -> u64 {
        self.0 = self.0.wrapping_add(0x9e3779b97f4a7c15);
        let mut z = self.0;
        z = (z ^ (z >> 30)).wrapping_mul(0xbf58476d1ce4e5b9);
        z = (z ^ (z >> 27)).wrapping_mul(0x94d049bb133111eb);
        z ^ (z >> 31)
    }

    pub fn below(&mut self, n: u64) -> u64 {
        self.next() % n
    }

    // An element; one in eight is near an end of the range.
    pub fn element(&mut self) -> u32 {
        let p = loops::P as u64;
        match self.below(16) {
            0 => self.below(3) as u32,
            1 => (p - 1 - self.below(3)) as u32,
            _ => self.below(p) as u32,
        }
    }

    // Any numbers of 32 bits; one in eight is the largest.
    pub fn words(&mut self, n: usize) -> Vec<u32> {
        (0..n).map(|_| if self.below(8) == 0 { u32::MAX } else { self.next() as u32 }).collect()
    }
}
