//! The limits of S, N and Q, and refusal 4.

use crate::field::P;
use crate::refusal;

/// Decided returns N, at most.
pub const MAX_LIMIT: u32 = 1024;

/// "Shares of S servers (2 to 8)": S outside is refused 2.
pub(crate) fn check_servers(servers: u32) -> Result<(), u32> {
    if (2..=8).contains(&servers) {
        Ok(())
    } else {
        Err(refusal::LIMIT)
    }
}

/// N, then refusal 4 for the largest value of all columns.
pub(crate) fn check_limit(largest: u64, limit: u32) -> Result<(), u32> {
    check_returns(limit)?;
    check_wraps(largest, limit)
}

/// The same with Q: "A table now opens with a least count Q, 1 to N, checked after N."
pub(crate) fn check_opening(largest: u64, limit: u32, least: u32) -> Result<(), u32> {
    check_returns(limit)?;
    // "A Q outside its range is refused 2."
    if !(1..=limit).contains(&least) {
        return Err(refusal::LIMIT);
    }
    check_wraps(largest, limit)
}

/// "N (1 to 1,024 decided returns)."
fn check_returns(limit: u32) -> Result<(), u32> {
    if (1..=MAX_LIMIT).contains(&limit) {
        Ok(())
    } else {
        Err(refusal::LIMIT)
    }
}

/// "N times a column's largest value is p or more" (refusal 4).
fn check_wraps(largest: u64, limit: u32) -> Result<(), u32> {
    if u64::from(limit) * largest < P {
        Ok(())
    } else {
        Err(refusal::WRAPS)
    }
}
