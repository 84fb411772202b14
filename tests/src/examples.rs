//! Document 01's "Examples at the bench", through the calls.

use second::field;
use second::gen::added_up;
use second::Sheet;

use crate::calls::{plain, Call, Function};
use crate::layout::word;
use crate::pools::Pool;
use crate::reference::{message_length, ONE_BYTES};
use crate::suite::{Suite, Verdict};

const P: u64 = 2_147_483_647;

fn bytes_of(numbers: &[u64]) -> Vec<u8> {
    numbers.iter().flat_map(|&number| (number as u32).to_le_bytes()).collect()
}

fn equal<T: PartialEq + std::fmt::Debug>(what: &str, is: T, must: T) -> Verdict {
    if is == must {
        return Ok(());
    }
    Err(format!("{what} is {is:?}\nmust be {must:?}"))
}

/// The sums of the first two elements of joined round messages.
fn sums(joined: &[u8]) -> (u64, u64) {
    let messages = joined.chunks(message_length(joined));
    let add = |at: usize| messages.clone().fold(0, |sum, message| (sum + word(message, at)) % P);
    (add(6), add(10))
}

/// Sheet 17: its circuit, counts and share message; other sheets that are read or refused.
pub fn sheets(suite: &mut Suite) -> Verdict {
    suite.seed(0);
    let circuit = vec![
        0x01, 0xFE, 0xFF, 0xFF, 0x7F, 0x02, 0x00, 0x00, 0x03, 0x01, 0x00, 0x00, 0x00, 0x05, 0x01, 0x00, 0x02, 0x00,
        0x06, 0x03, 0x00,
    ];
    let sheet = vec![17];
    let call = Call { sheet: sheet.clone(), room: 21, ..Call::of(Function::Circuit) };
    suite.gives(&call, plain(Vec::new(), circuit.clone()))?;
    let call = Call { sheet, ..Call::of(Function::Sizes) };
    suite.gives(&call, plain(vec![1, 1, 1, 4, 1, 1, 21, 42, 1024], Vec::new()))?;
    let call = Call { entries: 1, message: circuit, ..Call::of(Function::ReadCircuit) };
    suite.gives(&call, plain(vec![4, 1, 1], Vec::new()))?;
    let others: [(&[u8], u32); 6] =
        [(&[18, 1], 2), (&[18, 65], 2), (&[18, 2], 0), (&[18, 64], 0), (&[], 2), (&[20], 1)];
    for (sheet, number) in others {
        suite.number(&Call { sheet: sheet.to_vec(), ..Call::of(Function::Sizes) }, number)?;
    }
    for (returns, number) in [(128, 0), (129, 4)] {
        suite.number(&Call::open_table(2, 0, &[19, 24], returns), number)?;
    }
    Ok(())
}

/// Yes with u_0 = 2, v_0 = 3, a = 5, b = 7 for S servers.
fn yes(suite: &mut Suite, servers: u32) -> Result<Vec<Vec<u8>>, String> {
    let mut random = vec![2, 3, 5, 7];
    random.extend((0..9 * u64::from(servers - 1)).map(|k| (k * 238_609_294 + 17) % P));
    let call = Call {
        sheet: vec![17],
        servers,
        id: 0xA1B2_C3D4,
        values: bytes_of(&[1]),
        random: bytes_of(&random),
        room: 42 * servers as usize,
        ..Call::of(Function::Make)
    };
    let made = suite.check(&call)?.map_err(|number| format!("refused {number}"))?;
    Ok(made.bytes.chunks(42).map(<[u8]>::to_vec).collect())
}

/// Yes: h, and the rounds at r = 4.
pub fn honest(suite: &mut Suite) -> Verdict {
    let sheet = Sheet::read(&[17]).map_err(|number| format!("refused {number}"))?;
    for servers in 2..=8 {
        suite.seed(u64::from(servers));
        let shares = yes(suite, servers)?;
        equal("the return", added_up(&sheet, &shares), Some(vec![1, 2, 3, 6, 0, 0, 5, 7, 35]))?;
        let mut pool = Pool::open(suite, servers, &[17], 1)?;
        let one = pool.share(suite, &shares, 4, 12_345)?;
        equal("d, e", sums(&one), (2_147_483_640, 2_147_483_604))?;
        let two = pool.round_one(suite, &one)?;
        equal("sigma, tau", sums(&two), (0, 0))?;
        equal("the verdicts", pool.round_two(suite, &two)?, vec![1; servers as usize])?;
    }
    Ok(())
}

/// A false entry 2: r = 2 lets it in, r = 3 does not. The same circuit with r at its limits.
pub fn cheating(suite: &mut Suite) -> Verdict {
    suite.seed(9);
    let whole = [2, 2, 3, 6, 0, 2_147_483_645, 11, 13, 143];
    let part = [7, P - 1, 0, 99, 1 << 30, 5, 6, 1_000_000_007, 3];
    let rest: Vec<u64> = whole.iter().zip(&part).map(|(&all, &part)| field::sub(all, part)).collect();
    let message = |server: u8, elements: &[u64]| [&[33, 1, 0, 0, 0, server], &bytes_of(elements)[..]].concat();
    let shares = [message(0, &rest), message(1, &part)];
    for (r, sigma, verdict) in [(2, 0, 1), (3, 2_147_483_629, 0)] {
        let mut pool = Pool::open(suite, 2, &[17], 10)?;
        let one = pool.share(suite, &shares, r, 5)?;
        let two = pool.round_one(suite, &one)?;
        equal("sigma, tau", sums(&two), (sigma, 0))?;
        equal("the verdicts", pool.round_two(suite, &two)?, vec![verdict; 2])?;
    }
    let pool = Pool::open(suite, 2, &[17], 10)?;
    for (r, number) in [(1, 9), (2, 0), (P - 1, 0), (P, 9)] {
        let (table, message) = (pool.tables[0].clone(), shares[0].clone());
        suite.number(&Call { table, message, r, s: 5, room: ONE_BYTES, ..Call::of(Function::Share) }, number)?;
    }
    Ok(())
}

/// The totals messages of the recount example.
pub fn example_totals() -> Vec<u8> {
    let message = |server: u8, totals: &[u64]| [&[36, server, 3, 0, 0, 0], &bytes_of(totals)[..]].concat();
    [message(0, &[5, 7, 2_147_483_646, 0]), message(1, &[2_147_483_644, 2_147_483_640, 3, 1])].concat()
}

/// The recount example by joining: 3 accepted, totals 2; 0, 2, 1.
pub fn joining(suite: &mut Suite) -> Verdict {
    suite.seed(0);
    let (sheet, message) = (vec![17, 18, 3], example_totals());
    let call = Call { servers: 2, sheet, returns: 10, message, room: 16, ..Call::of(Function::Join) };
    suite.gives(&call, plain(vec![3], bytes_of(&[2, 0, 2, 1])))?;
    // Refusal 4 comes before 12: no messages at all.
    let (sheet, message) = (vec![19, 24], Vec::new());
    suite.number(&Call { servers: 2, sheet, returns: 129, message, ..Call::of(Function::Join) }, 4)
}
