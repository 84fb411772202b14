// Compares the C functions of libpool.a with the second program's fast and lent forms and with the bare arithmetic in
// Rust: their speed, how it grows and the memory, or with --check the results.
mod check;
mod growth;
mod kernel;
mod look;
#[path = "../field/loops.rs"]
mod loops;
mod memory;
mod passes;
mod pool;
mod series;
mod setting;
mod speed;
mod tables;
#[path = "../timing.rs"]
mod timing;

fn measure() {
    let settings = setting::settings();
    println!("CPU: {}; {} rounds in turns, medians", timing::cpu(), timing::ROUNDS);
    speed::run(&settings);
    println!();
    look::run(&settings);
    println!();
    kernel::run(&settings);
    println!();
    growth::run();
    println!();
    memory::run(&settings);
}

fn main() {
    let words: Vec<String> = std::env::args().skip(1).collect();
    let words: Vec<&str> = words.iter().map(String::as_str).collect();
    if !matches!(words[..], [] | ["--check"]) {
        eprintln!("usage: calls [--check]");
        std::process::exit(2)
    }
    let (passed, failed) = check::run();
    if words.is_empty() && failed == 0 {
        measure();
    } else {
        println!("{passed} passed, {failed} failed");
    }
    std::process::exit(if failed == 0 { 0 } else { 1 })
}
