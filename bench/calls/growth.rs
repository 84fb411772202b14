// How the cost of a share and of making grows with M: sheets of M yes/no, S = 2. Each M is timed in turns with half of
// it, so that the ratio is taken in one stretch of time.
use crate::series::{series, Call};
use crate::setting::{Setting, ROOM};
use crate::tables::Ours;
use crate::{speed, timing};

fn share(x: &Setting) -> f64 {
    series::<Ours>(x, Call::Share, 0)
}

fn make(x: &Setting) -> f64 {
    let mut out = vec![0; ROOM];
    timing::time(&mut || speed::our_make(x, &mut out), 2048 / x.gates + 8)
}

pub fn run() {
    println!("{:<11} {:>4} {:>11} {:>16}", "call", "M", "ours, ns", "to half of M");
    let measured: [(&str, fn(&Setting) -> f64); 2] = [("share", share), ("make", make)];
    for (call, measure) in measured {
        for m in [1, 2, 4, 8, 16, 32, 64, 128, 256] {
            let whole = Setting::new("yes/no", vec![17; m], 2);
            let half = Setting::new("yes/no", vec![17; m.div_ceil(2)], 2);
            let [ours, before] = timing::medians([&mut || measure(&whole), &mut || measure(&half)]);
            let ratio = if m > 1 { format!("{:.2}", ours / before) } else { "-".to_string() };
            println!("{call:<11} {m:>4} {ours:>11.1} {ratio:>16}");
        }
    }
}
