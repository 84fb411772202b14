//! Share messages and challenges at fault.

mod common;

use common::*;
use second::field::P;
use second::{open, share, Table};

#[test]
fn share_message_faults() {
    let sheet = [17, 19, 3];
    let shares = honest(&sheet, 3, 1);
    let mut table = open(3, 1, &sheet, 5, 1).unwrap();
    let good = &shares[1];
    // Every other kind byte, every other server.
    for byte in (0..=255).filter(|&byte| byte != 33) {
        let message = with(good, 0, &[byte]);
        refused(&mut table, 7, |t| share(t, &message, 100, 0, ONE_BYTES));
    }
    for byte in (0..=255).filter(|&byte| byte != 1) {
        let message = with(good, 5, &[byte]);
        refused(&mut table, 7, |t| share(t, &message, 100, 0, ONE_BYTES));
    }
    // Every shorter length, some longer ones.
    for length in (0..good.len()).chain([good.len() + 1, good.len() + 4, good.len() + 1000]) {
        let message = resized(good, length);
        refused(&mut table, 7, |t| share(t, &message, 100, 0, ONE_BYTES));
    }
    // Every element.
    for at in (6..good.len()).step_by(4) {
        for large in [P32, P32 + 1, u32::MAX] {
            let message = with(good, at, &large.to_le_bytes());
            refused(&mut table, 8, |t| share(t, &message, 100, 0, ONE_BYTES));
        }
    }
    challenges(&mut table, good);
}

/// Challenges outside their range, never cut: M = 4.
fn challenges(table: &mut Table, good: &[u8]) {
    for r in [
        0,
        1,
        3,
        4,
        P,
        P + 1,
        (1 << 32) + 4,
        (1 << 32) + 100,
        u64::MAX,
    ] {
        refused(table, 9, |t| share(t, good, r, 0, ONE_BYTES));
    }
    for s in [P, P + 1, 1 << 32, (1 << 32) + 1, u64::MAX] {
        refused(table, 9, |t| share(t, good, 5, s, ONE_BYTES));
    }
    for (r, s) in [(5, 0), (8, P - 1), (9, 1), (P - 1, P - 1)] {
        assert!(share(&mut table.clone(), good, r, s, ONE_BYTES).is_ok());
    }
}
