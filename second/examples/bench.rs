//! Times of the plain and the fast form.
//!
//! `cargo run --release --offline --example bench`

use std::hint::black_box;
use std::time::Instant;

use second::gen::{self, Rng};
use second::{fast, field::P, table, Sheet};

/// Microseconds for one of so many calls: the best of a hundred batches, since the machine may
/// be busy with other work.
fn time(count: u32, mut call: impl FnMut(u32)) -> f64 {
    let batch = count.div_ceil(100);
    let mut best = f64::INFINITY;
    for start in (0..count).step_by(batch as usize) {
        let before = Instant::now();
        for number in start..start + batch {
            call(number);
        }
        best = best.min(before.elapsed().as_secs_f64());
    }
    best * 1e6 / f64::from(batch)
}

/// What the calls on one sheet take. Two servers.
struct Setting<'a> {
    bytes: &'a [u8],
    gates: u64,
    values: Vec<u8>,
    random: Vec<u8>,
    challenges: Vec<(u64, u64)>,
    shares: Vec<Vec<u8>>,
}

const SERVERS: u32 = 2;
const ROOM: usize = usize::MAX;
/// The id of the return that is made once.
const ID: u32 = 7;
/// A fresh table every so many returns.
const LIMIT: u32 = 64;

impl Setting<'_> {
    fn of(bytes: &[u8]) -> Result<Setting<'_>, u32> {
        let sheet = Sheet::read(bytes)?;
        let mut rng = Rng::new(1);
        let values = gen::values(&mut rng, &sheet);
        let random = gen::elements(&mut rng, sheet.share_elements() + 4);
        let gates = sheet.multiplications() as u64;
        let challenges = (0..256)
            .map(|_| (rng.between(gates + 1, P - 1), rng.below(P)))
            .collect();
        let made = fast::make(bytes, SERVERS, ID, &values, &random, ROOM)?;
        let shares = made.chunks(sheet.share_length());
        Ok(Setting {
            bytes,
            gates,
            values,
            random,
            challenges,
            shares: shares.map(<[u8]>::to_vec).collect(),
        })
    }

    /// How often the plain form is called.
    fn plain_count(&self) -> u32 {
        if self.gates > 100 {
            3
        } else {
            200
        }
    }

    fn make_plain(&self) -> f64 {
        time(self.plain_count(), |id| {
            let made = second::make(self.bytes, SERVERS, id, &self.values, &self.random, ROOM);
            let _ = black_box(made);
        })
    }

    fn make_fast(&self) -> f64 {
        time(2000, |id| {
            let made = fast::make(self.bytes, SERVERS, id, &self.values, &self.random, ROOM);
            let _ = black_box(made);
        })
    }

    fn share_plain(&self) -> Result<f64, u32> {
        let plain = table::open(SERVERS, 0, self.bytes, 1, 1)?;
        Ok(time(self.plain_count(), |number| {
            let (r, s) = self.challenges[number as usize % 256];
            let mut table = plain.clone();
            let _ = black_box(table::share(&mut table, &self.shares[0], r, s, ROOM));
        }))
    }

    /// A share and a drop; ids are rewritten in place.
    fn share_fast(&self) -> Result<f64, u32> {
        let mut message = self.shares[0].clone();
        let fresh = || fast::open(SERVERS, 0, self.bytes, LIMIT, 1);
        let mut table = fresh()?;
        Ok(time(20_000, |number| {
            if number % LIMIT == 0 {
                if let Ok(fresh) = fresh() {
                    table = fresh;
                }
            }
            message[1..5].copy_from_slice(&number.to_le_bytes());
            let (r, s) = self.challenges[number as usize % 256];
            let _ = black_box(fast::share(&mut table, &message, r, s, ROOM));
            let _ = fast::drop(&mut table, number);
        }))
    }

    /// Round one, round two and the entry at one server, on messages of two servers.
    fn rounds(&self) -> Result<f64, u32> {
        let (r, s) = self.challenges[0];
        let (mut tables, mut first, mut second) = (Vec::new(), Vec::new(), Vec::new());
        for (own, share) in (0..SERVERS).zip(&self.shares) {
            let mut table = fast::open(SERVERS, own, self.bytes, LIMIT, 1)?;
            first.extend(fast::share(&mut table, share, r, s, ROOM)?);
            tables.push(table);
        }
        for table in &tables {
            second.extend(fast::round_one(&mut table.clone(), ID, &first, ROOM)?);
        }
        let cloned = time(20_000, |_| {
            black_box(tables[0].clone());
        });
        let all = time(20_000, |_| {
            let mut table = tables[0].clone();
            let _ = black_box(fast::round_one(&mut table, ID, &first, ROOM));
            let _ = black_box(fast::round_two(&mut table, ID, &second));
            let _ = black_box(fast::enter(&mut table, ID));
        });
        Ok(all - cloned)
    }
}

/// The line of one sheet.
fn line(name: &str, bytes: &[u8]) -> Result<String, u32> {
    let setting = Setting::of(bytes)?;
    Ok(format!(
        "{name:24} {:>4} {:>12.2} {:>12.2} {:>12.2} {:>12.2} {:>12.2}",
        setting.gates,
        setting.make_plain(),
        setting.make_fast(),
        setting.share_plain()?,
        setting.share_fast()?,
        setting.rounds()?
    ))
}

fn main() {
    let sheets: [(&str, Vec<u8>); 7] = [
        ("1 yes/no", vec![17]),
        ("mixed, 51 entries", [17, 18, 4, 19, 11].repeat(3)),
        ("256 yes/no", vec![17; 256]),
        ("4 choices of 64", [18, 64].repeat(4)),
        (
            "10 numbers of 24 bits",
            [19, 24].repeat(10).into_iter().chain([19, 5]).collect(),
        ),
        ("15 numbers up to 200", [20, 200, 0, 0, 0].repeat(15)),
        ("9 points of 12 bits", [21, 12].repeat(9)),
    ];
    println!(
        "{:24} {:>4} {:>12} {:>12} {:>12} {:>12} {:>12}",
        "microseconds", "M", "make plain", "make fast", "share plain", "share fast", "rounds"
    );
    for (name, bytes) in &sheets {
        match line(name, bytes) {
            Ok(line) => println!("{line}"),
            Err(number) => println!("{name:24} refused {number}"),
        }
    }
}
