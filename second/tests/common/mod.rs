//! Helpers of the tests.
#![allow(dead_code)]

pub mod hall;
pub mod ledger;
pub mod lent_model;
pub mod lent_table;
pub mod pool;
pub mod rounds;
pub mod twins;

use second::field::{self, P};
use second::gen::{self, Rng};
use second::seeds::expand;
use second::{enter, make, open, round_one, round_two, share, Sheet, Table, Verdict};

/// p as a 4-byte number.
pub const P32: u32 = P as u32;

/// The lengths of the messages of round one and of round two.
pub const ONE_BYTES: usize = 22;
pub const TWO_BYTES: usize = 14;

/// Room that never runs out.
pub const ROOM: usize = usize::MAX;

pub fn hex(text: &str) -> Vec<u8> {
    text.split_whitespace()
        .map(|byte| u8::from_str_radix(byte, 16).unwrap())
        .collect()
}

/// 4 bytes to a number, lowest byte first.
pub fn words(numbers: &[u32]) -> Vec<u8> {
    numbers.iter().flat_map(|n| n.to_le_bytes()).collect()
}

/// A column with a top.
pub fn top_column(top: u32) -> Vec<u8> {
    [&[20], &top.to_le_bytes()[..]].concat()
}

/// Tops at both sides of every bit length, the least and the greatest among them.
pub fn tops() -> impl Iterator<Item = u32> {
    (0..24).flat_map(|bits| [1 << bits, (2 << bits) - 1, 3 << bits >> 1])
}

/// The longest sheet: no sheet that is read has more bytes.
pub fn longest_sheet() -> Vec<u8> {
    [top_column(1).repeat(85), vec![17]].concat()
}

/// A sheet of the longest circuit: six tops with 256 entries.
pub fn largest_sheet() -> Vec<u8> {
    [top_column(1 << 23).repeat(5), top_column(16)].concat()
}

/// The bytes with others in their place from a position on.
pub fn with(bytes: &[u8], at: usize, others: &[u8]) -> Vec<u8> {
    let mut bytes = bytes.to_vec();
    bytes[at..at + others.len()].copy_from_slice(others);
    bytes
}

/// The bytes cut or filled up with zeros to a length.
pub fn resized(bytes: &[u8], length: usize) -> Vec<u8> {
    let mut bytes = bytes.to_vec();
    bytes.resize(length, 0);
    bytes
}

/// A share message.
pub fn share_message(id: u32, server: u8, elements: &[u32]) -> Vec<u8> {
    let mut message = vec![33];
    message.extend(id.to_le_bytes());
    message.push(server);
    message.extend(words(elements));
    message
}

/// A seed message.
pub fn seed_message(id: u32, server: u8, seed: &[u8]) -> Vec<u8> {
    [&[38], &id.to_le_bytes()[..], &[server], seed].concat()
}

/// The long message that stands for a seed.
pub fn expanded(sheet: &Sheet, id: u32, server: u8, seed: &[u8; 32]) -> Vec<u8> {
    let elements = expand(seed, id, sheet.share_elements());
    let elements: Vec<u32> = elements.iter().map(|&element| element as u32).collect();
    share_message(id, server, &elements)
}

/// A closing message.
pub fn closing(server: u8, count: u32, totals: &[u32]) -> Vec<u8> {
    let mut message = vec![36, server];
    message.extend(count.to_le_bytes());
    message.extend(words(totals));
    message
}

/// The length of each of the joined messages of a round, by the first kind byte.
pub fn message_length(joined: &[u8]) -> usize {
    match joined[0] {
        34 => ONE_BYTES,
        35 => TWO_BYTES,
        kind => panic!("no round message starts with {kind}"),
    }
}

/// The messages of a round, one by one.
pub fn each_message(joined: &[u8]) -> std::slice::Chunks<'_, u8> {
    joined.chunks(message_length(joined))
}

/// The first two elements of a round message: d and e, or sigma and tau.
pub fn pair_of(message: &[u8]) -> (u64, u64) {
    let elements = field::elements(&message[6..14]).unwrap();
    (elements[0], elements[1])
}

/// r and s of a round one message.
pub fn challenges_of(message: &[u8]) -> (u64, u64) {
    let elements = field::elements(&message[14..22]).unwrap();
    (elements[0], elements[1])
}

/// The sums of the first two elements over joined messages.
pub fn sums(joined: &[u8]) -> (u64, u64) {
    each_message(joined)
        .map(pair_of)
        .fold((0, 0), |sums, pair| {
            ((sums.0 + pair.0) % P, (sums.1 + pair.1) % P)
        })
}

/// Opens S tables alike, with Q = 1.
pub fn open_all(servers: u32, sheet: &[u8], limit: u32) -> Vec<Table> {
    (0..servers)
        .map(|own| open(servers, own, sheet, limit, 1).unwrap())
        .collect()
}

/// The id of a share message or a round message.
pub fn id_of(message: &[u8]) -> u32 {
    u32::from_le_bytes(message[1..5].try_into().unwrap())
}

/// Takes one return through share and both rounds; gives the joined messages of both
/// rounds and the verdict.
pub fn judge(
    tables: &mut [Table],
    shares: &[Vec<u8>],
    r: u64,
    s: u64,
) -> (Vec<u8>, Vec<u8>, Verdict) {
    let id = id_of(&shares[0]);
    let mut first = Vec::new();
    for (table, message) in tables.iter_mut().zip(shares) {
        first.extend(share(table, message, r, s, ONE_BYTES).unwrap());
    }
    let mut second = Vec::new();
    for table in tables.iter_mut() {
        second.extend(round_one(table, id, &first, TWO_BYTES).unwrap());
    }
    let verdicts: Vec<Verdict> = tables
        .iter_mut()
        .map(|table| round_two(table, id, &second).unwrap())
        .collect();
    assert!(verdicts.iter().all(|verdict| *verdict == verdicts[0]));
    (first, second, verdicts[0])
}

/// The same, and enters the return at every table where it is accepted; gives the verdict.
pub fn take(tables: &mut [Table], shares: &[Vec<u8>], r: u64, s: u64) -> Verdict {
    let (_, _, verdict) = judge(tables, shares, r, s);
    if verdict == Verdict::Accepted {
        enter_all(tables, id_of(&shares[0]));
    }
    verdict
}

/// Enters a return at every table.
pub fn enter_all(tables: &mut [Table], id: u32) {
    for table in tables {
        assert_eq!(enter(table, id), Ok(()));
    }
}

/// The share messages of a return that was made, one for each server.
pub fn split(sheet: &Sheet, messages: &[u8]) -> Vec<Vec<u8>> {
    let shares = messages.chunks(sheet.share_length());
    shares.map(<[u8]>::to_vec).collect()
}

/// An honest return of a sheet, as share messages.
pub fn honest(sheet: &[u8], servers: u32, id: u32) -> Vec<Vec<u8>> {
    let mut rng = Rng::new(u64::from(id) + 100);
    let shape = Sheet::read(sheet).unwrap();
    let count = (servers as usize - 1) * shape.share_elements() + 4;
    let values = gen::values(&mut rng, &shape);
    let random = gen::elements(&mut rng, count);
    let messages = make(sheet, servers, id, &values, &random, ROOM).unwrap();
    split(&shape, &messages)
}

/// A call that is refused with this number and changes nothing.
pub fn refused<T: std::fmt::Debug + PartialEq>(
    table: &mut Table,
    number: u32,
    call: impl FnOnce(&mut Table) -> Result<T, u32>,
) {
    let before = table.clone();
    assert_eq!(call(table), Err(number));
    assert_eq!(*table, before);
}
