//! Prints scripts as text: `scripts <first seed> <number of scripts>`.

use std::env;
use std::io::{self, Write};

use second::gen::Script;

fn main() -> io::Result<()> {
    let mut arguments = env::args().skip(1).map(|text| text.parse::<u64>().ok());
    let first = arguments.next().flatten().unwrap_or(0);
    let count = arguments.next().flatten().unwrap_or(1);
    let mut out = io::stdout().lock();
    for seed in (0..count).map(|number| first.wrapping_add(number)) {
        writeln!(out, "# seed {seed}\n{}", Script::random(seed))?;
    }
    Ok(())
}
