// Times some ways of doing one thing, in turns, and compares the medians of the rounds.
use std::time::Instant;

pub const ROUNDS: usize = 31;
const ROUND_NS: f64 = 1_000_000.0;

// Nanoseconds for one of `times` calls.
pub fn time(call: &mut dyn FnMut(), times: usize) -> f64 {
    let start = Instant::now();
    for _ in 0..times {
        call();
    }
    start.elapsed().as_nanos() as f64 / times as f64
}

fn median(mut times: Vec<f64>) -> f64 {
    times.sort_by(f64::total_cmp);
    times[times.len() / 2]
}

// The median of each side, where each tells its own time. The side that begins a round is last in the next.
pub fn medians<const N: usize>(sides: [&mut dyn FnMut() -> f64; N]) -> [f64; N] {
    let mut times = [(); N].map(|()| Vec::new());
    for round in 0..ROUNDS {
        for turn in 0..N {
            let side = (round + turn) % N;
            times[side].push(sides[side]());
        }
    }
    times.map(median)
}

// The medians of both, in nanoseconds for a call.
pub fn compare(ours: &mut dyn FnMut(), other: &mut dyn FnMut()) -> [f64; 2] {
    let once = time(other, 100).max(1.0);
    let times = (ROUND_NS / once) as usize + 1;
    medians([&mut || time(ours, times), &mut || time(other, times)])
}

pub fn cpu() -> String {
    let info = std::fs::read_to_string("/proc/cpuinfo").unwrap_or_default();
    let name = info.lines().find(|l| l.starts_with("model name")).and_then(|l| l.split(": ").nth(1));
    name.unwrap_or("unknown").to_string()
}
