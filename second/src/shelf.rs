//! Messages on the shelf: stored by place, and back.

use crate::refusal;

/// Messages R, at most.
pub const MAX_MESSAGES: u32 = 64;
/// Bytes W of a message, at most.
pub const MAX_WIDTH: u32 = 4_096;

/// Stores R messages of W bytes each: "the first byte of each, then the second of each, and so
/// on". Order of refusals: 2, 19, 14.
pub fn shelve(messages: u32, width: u32, run: &[u8], room: usize) -> Result<Vec<u8>, u32> {
    check(messages, width, run, room)?;
    let width = width as usize;
    let places = 0..width;
    let each = |place| {
        run.chunks_exact(width)
            .map(move |message: &[u8]| message[place])
    };
    Ok(places.flat_map(each).collect())
}

/// "The inverse brings every message back": R messages of W bytes each from what was stored.
/// Order of refusals: 2, 19, 14.
pub fn unshelve(messages: u32, width: u32, run: &[u8], room: usize) -> Result<Vec<u8>, u32> {
    check(messages, width, run, room)?;
    // The bytes of each place, dealt out to the messages in turn.
    let mut piles = vec![Vec::new(); messages as usize];
    for place in run.chunks_exact(messages as usize) {
        for (pile, &byte) in piles.iter_mut().zip(place) {
            pile.push(byte);
        }
    }
    Ok(piles.concat())
}

/// "An R or W out of range is refused 2, a run that is not R × W bytes is refused 19, and then
/// a short buffer 14."
fn check(messages: u32, width: u32, run: &[u8], room: usize) -> Result<(), u32> {
    if !(1..=MAX_MESSAGES).contains(&messages) || !(1..=MAX_WIDTH).contains(&width) {
        return Err(refusal::LIMIT);
    }
    if run.len() != messages as usize * width as usize {
        return Err(refusal::RUN);
    }
    if room < run.len() {
        return Err(refusal::ROOM);
    }
    Ok(())
}
