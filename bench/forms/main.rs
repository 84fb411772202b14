// Compares the sizes of a sheet, writing a circuit, every legal list of values and storing messages by libpool.a with the same
// loops in Rust: their speed, or with --check their results. The sizes stand beside reading alone, too: what it costs to find
// them.
#[path = "../../include/pool.rs"]
mod c;
mod lists;
mod loops;
mod shelf;
#[path = "../timing.rs"]
mod timing;
use std::hint::black_box;

type Read = fn(&[u8], &mut [u32; 9]) -> u32;
type Write = fn(&[u8], &mut [u8], &mut usize) -> u32;
type List = fn(&[u8], &mut [u8], &mut u32, &mut usize) -> u32;

fn our_sizes(sheet: &[u8], out: &mut [u32; 9]) -> u32 {
    let [c, e, p, w, m, t, b, s, n] = out;
    unsafe { c::pool_sizes(sheet.as_ptr(), sheet.len(), c, e, p, w, m, t, b, s, n) }
}

fn our_circuit(s: &[u8], out: &mut [u8], written: &mut usize) -> u32 {
    unsafe { c::pool_circuit(s.as_ptr(), s.len(), out.as_mut_ptr(), out.len(), written) }
}

fn our_lists(s: &[u8], out: &mut [u8], lists: &mut u32, written: &mut usize) -> u32 {
    unsafe { c::pool_every_return(s.as_ptr(), s.len(), out.as_mut_ptr(), out.len(), lists, written) }
}

// Sheets by name: small ones, for each kind and for a mixture one of about 256 entries, and one whose numbers keep N low.
fn sheets() -> Vec<(&'static str, Vec<u8>)> {
    vec![
        ("one yes/no", vec![17]),
        ("small mixture", vec![17, 18, 4, 19, 8]),
        ("256 yes/no", vec![17; 256]),
        ("4 choices of 64", [18, 64].repeat(4)),
        ("128 choices of 2", [18, 2].repeat(128)),
        ("10 numbers of 24", [19, 24].repeat(10)),
        ("128 numbers of 1", [19, 1].repeat(128)),
        ("22 and 24 bits", vec![19, 22, 19, 24]),
        ("15 tops of 200", [20, 200, 0, 0, 0].repeat(15)),
        ("85 tops of 1", [20, 1, 0, 0, 0].repeat(85)),
        ("9 points of 12", [21, 12].repeat(9)),
        ("42 points of 1", [21, 1].repeat(42)),
        ("large mixture", [17, 18, 5, 19, 9, 17, 19, 3, 18, 2].repeat(11)),
        ("mixture, tops", [17, 18, 5, 19, 9, 20, 200, 0, 0, 0, 20, 1, 0, 0, 0].repeat(7)),
        ("mixture, points", [17, 21, 11, 18, 5, 21, 3, 19, 9].repeat(4)),
    ]
}

// Sheets of at most 4,096 lists.
fn small_sheets() -> Vec<(&'static str, Vec<u8>)> {
    vec![
        ("17, 18 3", vec![17, 18, 3]),
        ("12 yes/no", vec![17; 12]),
        ("2 choices of 64", [18, 64].repeat(2)),
        ("number of 12", vec![19, 12]),
        ("point of 6", vec![21, 6]),
        ("3,840 lists", vec![17, 18, 3, 19, 4, 18, 5, 17, 19, 2]),
    ]
}

fn read(f: Read, s: &[u8]) -> (u32, [u32; 9]) {
    let mut out = [9; 9];
    let answer = f(s, &mut out);
    (answer, out)
}

fn write(f: Write, s: &[u8], room: usize) -> (u32, usize, Vec<u8>) {
    let (mut out, mut written) = (vec![0xa5; room], 9);
    let answer = f(s, &mut out, &mut written);
    (answer, written, out)
}

fn list(f: List, s: &[u8], room: usize) -> (u32, u32, usize, Vec<u8>) {
    let (mut out, mut lists, mut written) = (vec![0xa5; room], 9, 9);
    let answer = f(s, &mut out, &mut lists, &mut written);
    (answer, lists, written, out)
}

// In bytes written for a nanosecond; the ratio is that of the times.
fn speed_of_lists() {
    println!("{:<17} {:<17} {:>11} {:>11} {:>7}", "call", "sheet", "ours, B/ns", "Rust, B/ns", "ratio");
    for (name, sheet) in small_sheets() {
        let s = &sheet[..];
        let bytes = list(our_lists, s, 196608).2 as f64;
        let (mut out, mut same) = (vec![0; 196608], vec![0; 196608]);
        let call = |f: List, out: &mut [u8]| {
            let (mut lists, mut written) = (0, 0);
            assert!(f(black_box(s), black_box(out), &mut lists, &mut written) == 0);
        };
        let [ours, rust] = timing::compare(&mut || call(our_lists, &mut out), &mut || call(lists::every_return, &mut same));
        println!("{:<17} {name:<17} {:>11.2} {:>11.2} {:>7.2}", "every return", bytes / ours, bytes / rust, ours / rust);
    }
}

fn speed() {
    println!("CPU: {}; {} rounds in turns, medians", timing::cpu(), timing::ROUNDS);
    println!("{:<17} {:<17} {:>11} {:>11} {:>7}", "call", "sheet", "ours, ns", "Rust, ns", "ratio");
    let others: [(&str, Read); 2] = [("sizes", loops::sizes), ("sizes to reading", loops::reading)];
    for (row, other) in others {
        for (name, sheet) in sheets() {
            let call = |f: Read| {
                black_box(read(f, black_box(&sheet)));
            };
            let [ours, rust] = timing::compare(&mut || call(our_sizes), &mut || call(other));
            println!("{row:<17} {name:<17} {ours:>11.1} {rust:>11.1} {:>7.2}", ours / rust);
        }
    }
    for (name, sheet) in sheets() {
        let s = &sheet[..];
        let (mut out, mut same) = (vec![0; 8192], vec![0; 8192]);
        let call = |f: Write, out: &mut [u8]| {
            let mut written = 0;
            assert!(f(black_box(s), black_box(out), &mut written) == 0);
        };
        let [ours, rust] = timing::compare(&mut || call(our_circuit, &mut out), &mut || call(loops::circuit, &mut same));
        println!("{:<17} {name:<17} {ours:>11.1} {rust:>11.1} {:>7.2}", "write circuit", ours / rust);
    }
    shelf::speed();
    speed_of_lists();
}

// A sheet, cut at every place, and with every byte set to a few others.
fn damaged(sheet: &[u8]) -> Vec<Vec<u8>> {
    let mut all = vec![sheet.to_vec()];
    all.extend((0..sheet.len()).map(|n| sheet[..n].to_vec()));
    for at in 0..sheet.len() {
        for byte in [0, 1, 12, 13, 16, 17, 20, 21, 22, 24, 25, 64, 65, 255] {
            let mut changed = sheet.to_vec();
            changed[at] = byte;
            all.push(changed);
        }
    }
    all
}

// Every sheet above and its damaged forms, and rooms around the length.
fn check() -> bool {
    let (mut passed, mut failed) = (0, 0);
    let mut expect = |same: bool, sheet: &[u8]| {
        if same {
            passed += 1;
        } else {
            failed += 1;
            println!("the results differ on the sheet {sheet:?}");
        }
    };
    for (_, sheet) in sheets() {
        for s in damaged(&sheet) {
            expect(read(our_sizes, &s) == read(loops::sizes, &s), &s);
            let (answer, length, _) = write(loops::circuit, &s, 8192);
            let rooms = if answer == 0 { vec![length - 1, length, length + 3] } else { vec![0, 8192] };
            for room in rooms {
                expect(write(our_circuit, &s, room) == write(loops::circuit, &s, room), &s);
            }
        }
    }
    for (_, sheet) in small_sheets() {
        for s in damaged(&sheet) {
            let (answer, _, length, _) = list(lists::every_return, &s, 1 << 20);
            let rooms = if answer == 0 { vec![length - 1, length, length + 3] } else { vec![0, 1 << 20] };
            for room in rooms {
                expect(list(our_lists, &s, room) == list(lists::every_return, &s, room), &s);
            }
        }
    }
    shelf::check(&mut |same, name| {
        if same {
            passed += 1;
        } else {
            failed += 1;
            println!("the results differ on {name}");
        }
    });
    println!("{passed} passed, {failed} failed");
    failed == 0
}

fn main() {
    let words: Vec<String> = std::env::args().skip(1).collect();
    match words.iter().map(String::as_str).collect::<Vec<_>>()[..] {
        [] => speed(),
        ["--check"] => std::process::exit(if check() { 0 } else { 1 }),
        _ => {
            eprintln!("usage: forms [--check]");
            std::process::exit(2)
        }
    }
}
