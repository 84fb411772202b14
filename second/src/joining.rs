//! Joining the closing messages of S servers.

use crate::field;
use crate::limits::{check_limit, check_servers};
use crate::refusal;
use crate::sheet::Sheet;
use crate::table::CLOSING;

/// What joining gives.
#[derive(Clone, Debug, PartialEq, Eq)]
pub struct Joined {
    /// The number of accepted returns.
    pub count: u32,
    /// The totals modulo p, as elements in entry order, 4 bytes each.
    pub totals: Vec<u8>,
}

/// Joins S closing messages, which stand in server order. Order of refusals: S, sheet, N, 4, 12,
/// 14.
pub fn join(
    servers: u32,
    sheet: &[u8],
    limit: u32,
    joined: &[u8],
    room: usize,
) -> Result<Joined, u32> {
    let sheet = pool(servers, sheet, limit)?;
    let (count, totals) = add_up(servers, &sheet, limit, joined)?;
    if room < field::WIDTH * totals.len() {
        return Err(refusal::ROOM);
    }
    let mut bytes = Vec::with_capacity(field::WIDTH * totals.len());
    for &total in &totals {
        field::put(&mut bytes, total);
    }
    Ok(Joined {
        count,
        totals: bytes,
    })
}

/// The sheet of a pool. Order of refusals: S, sheet, N, 4.
pub(crate) fn pool(servers: u32, sheet: &[u8], limit: u32) -> Result<Sheet, u32> {
    check_servers(servers)?;
    let sheet = Sheet::read(sheet)?;
    check_limit(sheet.largest(), limit)?;
    Ok(sheet)
}

/// The count and the totals modulo p of S closing messages (refusal 12).
pub(crate) fn add_up(
    servers: u32,
    sheet: &Sheet,
    limit: u32,
    joined: &[u8],
) -> Result<(u32, Vec<u64>), u32> {
    let length = sheet.closing_length();
    if joined.len() != servers as usize * length {
        return Err(refusal::JOINED);
    }
    let mut count = None;
    let mut totals = vec![0; sheet.published()];
    for (place, message) in (0u8..).zip(joined.chunks_exact(length)) {
        // "Totals messages still stand in server order."
        let (own_count, own_totals) = closing_parts(place, message).ok_or(refusal::JOINED)?;
        // "Totals counts unequal or over N."
        if own_count > limit || *count.get_or_insert(own_count) != own_count {
            return Err(refusal::JOINED);
        }
        for (total, &element) in totals.iter_mut().zip(&own_totals) {
            *total = field::add(*total, element);
        }
    }
    Ok((count.unwrap_or(0), totals))
}

/// The count and the totals of the closing message at one place; `None` for a wrong kind
/// or server, or an element not below p.
fn closing_parts(place: u8, message: &[u8]) -> Option<(u32, Vec<u64>)> {
    match message {
        [CLOSING, server, c0, c1, c2, c3, totals @ ..] if *server == place => {
            let count = u32::from_le_bytes([*c0, *c1, *c2, *c3]);
            Some((count, field::elements(totals)?))
        }
        _ => None,
    }
}
