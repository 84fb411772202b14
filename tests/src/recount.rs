//! The program recount against the second program's text.

use std::env;
use std::io::Write;
use std::path::PathBuf;
use std::process::{Command, Stdio};
use std::thread::sleep;
use std::time::Duration;

use second::gen::{Case, Exchange, Hex, Rng, Script};

use crate::examples::example_totals;
use crate::suite::Verdict;

/// The program: the one that POOL_RECOUNT names, or target/bin/recount below the current folder; `None` where there is
/// none.
pub fn program() -> Option<PathBuf> {
    let path = env::var("POOL_RECOUNT").map_or(PathBuf::from("target/bin/recount"), PathBuf::from);
    path.is_file().then_some(path)
}

/// What the program prints on an input that comes in pieces of so many bytes, with a pause after each.
fn printed(program: &PathBuf, input: &[u8], piece: usize) -> std::io::Result<Vec<u8>> {
    let mut child = Command::new(program).stdin(Stdio::piped()).stdout(Stdio::piped()).spawn()?;
    if let Some(mut stdin) = child.stdin.take() {
        for part in input.chunks(piece) {
            // A program that has read enough may close its end.
            let _ = stdin.write_all(part);
            if part.len() < input.len() {
                sleep(Duration::from_millis(1));
            }
        }
    }
    let output = child.wait_with_output()?;
    match output.status.code() {
        Some(_) => Ok(output.stdout),
        None => Err(std::io::Error::other(output.status.to_string())),
    }
}

fn check(program: &PathBuf, input: &[u8]) -> Verdict {
    check_in_pieces(program, input, usize::MAX)
}

fn check_in_pieces(program: &PathBuf, input: &[u8], piece: usize) -> Verdict {
    let must = second::recount(input);
    let is = printed(program, input, piece).map_err(|error| format!("recount {}\n{error}", Hex(input)))?;
    if is == must.as_bytes() {
        return Ok(());
    }
    let is = String::from_utf8_lossy(&is);
    Err(format!("recount {}\nprints {is:?}\nmust print {must:?}", Hex(input)))
}

fn input(servers: u8, sheet: &[u8], returns: u16, joined: &[u8]) -> Vec<u8> {
    let length = (sheet.len() as u16).to_le_bytes();
    [&length[..], sheet, &[servers], &returns.to_le_bytes()[..], joined].concat()
}

/// The example of document 01, cut everywhere and with more behind it.
pub fn example(program: &PathBuf) -> Verdict {
    let whole = input(2, &[17, 18, 3], 10, &example_totals());
    let text = "accepted 3\n1 0 2\n2 0 0\n2 1 2\n2 2 1\n";
    if second::recount(&whole) != text {
        return Err("the second program prints another text for the example".to_string());
    }
    for length in 0..=whole.len() {
        check(program, &whole[..length])?;
    }
    check(program, &[&whole[..], &[0]].concat())?;
    check(program, &[&whole[..], &vec![36; 200_000]].concat())
}

/// A column with a top of 200 between others: one total, option 0. Cut everywhere, and with tops out of range.
pub fn tops(program: &PathBuf) -> Verdict {
    let message =
        |server: u8, totals: [u32; 4]| [&[36, server, 2, 0, 0, 0], &totals.map(u32::to_le_bytes).concat()[..]].concat();
    let joined = [message(0, [2_147_483_646, 1, 7, 0]), message(1, [2, 0, 318, 1])].concat();
    let whole = input(2, &[18, 2, 20, 200, 0, 0, 0, 17], 1024, &joined);
    let text = "accepted 2\n1 0 1\n1 1 1\n2 0 325\n3 0 1\n";
    if second::recount(&whole) != text {
        return Err("the second program prints another text for a column with a top".to_string());
    }
    for length in 0..=whole.len() {
        check(program, &whole[..length])?;
    }
    for (at, byte) in [(5, 0), (6, 1), (7, 255), (8, 1), (8, 255)] {
        let mut other = whole.clone();
        other[at] = byte;
        check(program, &other)?;
    }
    for returns in [128, 129] {
        check(program, &input(2, &[18, 2, 20, 255, 255, 255, 0, 17], returns, &joined))?;
    }
    Ok(())
}

/// A column of points of 12 bits between others: four totals, options 0 to 3. Cut everywhere, and with bits out of range.
pub fn points(program: &PathBuf) -> Verdict {
    let message =
        |server: u8, totals: [u32; 6]| [&[36, server, 3, 0, 0, 0], &totals.map(u32::to_le_bytes).concat()[..]].concat();
    let joined = [message(0, [5, 2_147_483_646, 7, 0, 20, 1]), message(1, [0, 7, 7, 9, 2, 0])].concat();
    let whole = input(2, &[19, 2, 21, 12, 17], 128, &joined);
    let text = "accepted 3\n1 0 5\n2 0 6\n2 1 14\n2 2 9\n2 3 22\n3 0 1\n";
    if second::recount(&whole) != text {
        return Err("the second program prints another text for a column of points".to_string());
    }
    for length in 0..=whole.len() {
        check(program, &whole[..length])?;
    }
    for (at, byte) in [(4, 22), (5, 0), (5, 1), (5, 11), (5, 13), (5, 24), (5, 255), (8, 129)] {
        let mut other = whole.clone();
        other[at] = byte;
        check(program, &other)?;
    }
    Ok(())
}

/// The example in pieces, whole and cut.
pub fn pieces(program: &PathBuf) -> Verdict {
    let whole = input(2, &[17, 18, 3], 10, &example_totals());
    for piece in [1, 2, 3, 5, 13, 22] {
        check_in_pieces(program, &whole, piece)?;
        check_in_pieces(program, &whole[..whole.len() - 1], piece)?;
    }
    check_in_pieces(program, &input(2, &vec![17; 65_535], 1, &[]), 5_000)
}

/// Long sheets, S and N at their limits, and more input than any joined messages.
pub fn limits(program: &PathBuf) -> Verdict {
    let mut long = vec![17; 65_535];
    for last in [17, 18, 19, 20, 21, 22, 99] {
        long[65_534] = last;
        let whole = input(2, &long, 1, &[]);
        for length in whole.len() - 4..=whole.len() {
            check(program, &whole[..length])?;
        }
        check(program, &[&whole[..], &vec![0; 100_000]].concat())?;
    }
    for servers in [0, 1, 2, 8, 9, 255] {
        for returns in [0, 1, 128, 129, 1024, 1025, 65_535] {
            for sheet in [&[19, 24][..], &[17], &[], &[20], &[18, 1], &[17; 256], &[17; 257], &[20, 255, 255, 255, 0]] {
                check(program, &input(servers, sheet, returns, &[]))?;
            }
            for sheet in [&[21][..], &[22], &[21, 12], &[21, 13]] {
                check(program, &input(servers, sheet, returns, &[]))?;
            }
        }
    }
    Ok(())
}

/// Random and damaged inputs, and those of whole scripts.
pub fn random(program: &PathBuf, seed: u64) -> Verdict {
    let mut rng = Rng::new(seed);
    let mut inputs: Vec<Case> = (0..300).map(|_| Case::random_recount(&mut rng)).collect();
    let scripts = (0..20).flat_map(|number| Script::random(seed + number).joins);
    inputs.extend(scripts.map(|Exchange { case, .. }| case));
    for case in inputs {
        if let Case::Recount { input } = case {
            check(program, &input).map_err(|text| format!("seed {seed}\n{text}"))?;
        }
    }
    Ok(())
}
