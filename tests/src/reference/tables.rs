//! The first answer to opening and to the calls on a table: from the layout of the three parts and the second program's
//! judging.

use second::field::{self, P};
use second::gen::elements_of;
use second::{fast, refusal, Sheet};

use super::{round_message, ONE_BYTES, TWO_BYTES};
use crate::calls::{Call, Done, Outcome};
use crate::layout::{self, id_of, put_short, put_word, word, Parts, Slot, Table};

/// A call on a table that is done.
fn done(numbers: Vec<u64>, bytes: Vec<u8>, table: Parts) -> Outcome {
    Ok(Done { numbers, signed: Vec::new(), bytes, table })
}

pub fn open(call: &Call) -> Outcome {
    let Call { servers, own, returns, least, .. } = *call;
    fast::open(servers, own, &call.sheet, returns, least)?;
    let sheet = Sheet::read(&call.sheet)?;
    let table = layout::opened(servers, own, &call.sheet, &sheet, returns, least);
    if call.room < table.bytes.len() || call.slots != layout::SLOTS || call.elements < table.elements.len() {
        return Err(refusal::ROOM);
    }
    done(Vec::new(), Vec::new(), table)
}

/// What the lent table says, where it is sound and not closed.
fn open_table(call: &Call) -> Result<Table, u32> {
    layout::sound(&call.table).filter(|table| !table.closed).ok_or(refusal::STAGE)
}

/// The record of the named id, where it is in this stage.
fn awaits(call: &Call, stage: u32) -> Result<usize, u32> {
    let record = call.table.record(call.id).filter(|&record| call.table.slots[record].stage == stage);
    record.ok_or(refusal::STAGE)
}

pub fn share(call: &Call) -> Outcome {
    let table = open_table(call)?;
    let free = call.table.slots.iter().position(|slot| slot.stage == layout::FREE).ok_or(refusal::STAGE)?;
    if table.decided + call.table.waiting() >= table.returns {
        return Err(refusal::FULL);
    }
    // A fresh table knows no ids, so that 10 has to be put between 8 and 9.
    let mut fresh = fast::open(table.servers, table.own, &table.bytes, table.returns as u32, 1)?;
    let taken = fast::share(&mut fresh, &call.message, call.r, call.s, call.room);
    if let Err(number @ (refusal::SHARE | refusal::ELEMENT)) = taken {
        return Err(number);
    }
    let id = id_of(&call.message);
    let decided = layout::words(&call.table.bytes, table.at.ids, table.decided);
    if decided.contains(&u64::from(id)) || call.table.record(id).is_some() {
        return Err(refusal::DECIDED);
    }
    let message = taken?;
    let mut after = call.table.clone();
    let (d, e) = (word(&message, 6), word(&message, 10));
    after.slots[free] = Slot { id, stage: layout::AWAITS_ONE, r: call.r, s: call.s, d, e };
    let sheet = Sheet::read(&table.bytes)?;
    let mut place = elements_of(&sheet, &call.message).ok_or(refusal::SHARE)?;
    let (rh, tau) = hidden(&mut fresh, &table, &place, &message);
    place.extend([rh, tau]);
    for (to, number) in table.place_mut(&mut after, free).iter_mut().zip(place) {
        *to = number as u32;
    }
    done(Vec::new(), message.to_vec(), after)
}

/// r × h(r) and tau of a share that the second program just took. They are read off its round two message when the
/// other servers' d and e are 0: then the sums are its own.
fn hidden(fresh: &mut fast::Table, table: &Table, share: &[u64], message: &[u8]) -> (u64, u64) {
    let mut joined = message.repeat(table.servers as usize);
    for (server, other) in (0..).zip(joined.chunks_mut(ONE_BYTES)) {
        other[5] = server;
        if u32::from(server) != table.own {
            other[6..14].fill(0);
        }
    }
    let next = fast::round_one(fresh, id_of(message), &joined, TWO_BYTES).expect("sound messages");
    let whole = sigma(table, share, word(message, 6), word(message, 10), 0);
    (field::sub(whole, word(&next, 6)), word(&next, 10))
}

/// sigma_i = d × b_i + e × a_i + c_i - r × h_i(r), plus d × e at server 0, of the elements of a share.
fn sigma(table: &Table, share: &[u64], d: u64, e: u64, rh: u64) -> u64 {
    let [a, b, c] = [3, 2, 1].map(|back| share[table.at.share - back]);
    let own = field::sum([field::mul(d, b), field::mul(e, a), c]);
    let first = if table.own == 0 { field::mul(d, e) } else { 0 };
    field::sub(field::add(own, first), rh)
}

/// The message that the table wrote for the round that a record awaits.
pub fn own_message(table: &Table, parts: &Parts, record: usize) -> Vec<u8> {
    let Slot { id, stage, r, s, d, e } = parts.slots[record];
    let numbers: Vec<u64> = table.place(parts, record).iter().map(|&number| u64::from(number)).collect();
    let (rh, tau) = (numbers[table.at.share], numbers[table.at.share + 1]);
    match stage {
        layout::AWAITS_ONE => round_message(34, id, table.own, &[d, e, r, s]),
        _ => round_message(35, id, table.own, &[sigma(table, &numbers, d, e, rh), tau]),
    }
}

/// The sums of the first two elements of joined round messages for a record, or refusal 12. They may stand in any order:
/// sorted by their server numbers, message k is server k's.
fn sums(table: &Table, parts: &Parts, record: usize, joined: &[u8]) -> Result<(u64, u64), u32> {
    let mine = own_message(table, parts, record);
    if joined.len() != mine.len() * table.servers as usize {
        return Err(refusal::JOINED);
    }
    let mut messages: Vec<&[u8]> = joined.chunks(mine.len()).collect();
    messages.sort_by_key(|message| message[5]);
    let mut sums = (0, 0);
    for (server, message) in messages.into_iter().enumerate() {
        let elements = layout::words(message, 6, (message.len() - 6) / 4);
        let alike = message[..5] == mine[..5] && usize::from(message[5]) == server;
        let own = server != table.own as usize || message == mine;
        if !alike || !own || elements.iter().any(|&element| element >= P) {
            return Err(refusal::JOINED);
        }
        sums = (field::add(sums.0, elements[0]), field::add(sums.1, elements[1]));
    }
    Ok(sums)
}

pub fn round_one(call: &Call) -> Outcome {
    let table = open_table(call)?;
    let record = awaits(call, layout::AWAITS_ONE)?;
    let (d, e) = sums(&table, &call.table, record, &call.message)?;
    // Each message has the r and s of the first.
    if call.message.chunks(ONE_BYTES).any(|message| message[14..] != call.message[14..ONE_BYTES]) {
        return Err(refusal::UNEQUAL);
    }
    if call.room < TWO_BYTES {
        return Err(refusal::ROOM);
    }
    let mut after = call.table.clone();
    after.slots[record] = Slot { stage: layout::AWAITS_TWO, d, e, ..after.slots[record] };
    done(Vec::new(), own_message(&table, &after, record), after)
}

pub fn round_two(call: &Call) -> Outcome {
    let table = open_table(call)?;
    let record = awaits(call, layout::AWAITS_TWO)?;
    let accepted = sums(&table, &call.table, record, &call.message)? == (0, 0);
    let mut after = call.table.clone();
    match accepted {
        true => after.slots[record].stage = layout::AWAITS_ENTRY,
        false => decide(&table, &mut after, record, 0),
    }
    done(vec![u64::from(accepted)], Vec::new(), after)
}

pub fn enter(call: &Call) -> Outcome {
    let table = open_table(call)?;
    let record = awaits(call, layout::AWAITS_ENTRY)?;
    let mut after = call.table.clone();
    for (k, entry) in table.sheet.published_entries().enumerate() {
        let at = table.at.totals + 4 * k;
        let share = u64::from(table.place(&call.table, record)[entry]);
        let total = field::add(word(&after.bytes, at), share);
        put_word(&mut after.bytes, at, total);
    }
    decide(&table, &mut after, record, 1);
    done(Vec::new(), Vec::new(), after)
}

/// The return of a record is decided: its id is noted, all else of it is erased, and the record is free.
fn decide(table: &Table, after: &mut Parts, record: usize, entered: usize) {
    let id = after.slots[record].id;
    put_word(&mut after.bytes, table.at.ids + 4 * table.decided, id.into());
    put_short(&mut after.bytes, 6, table.decided + 1);
    put_short(&mut after.bytes, 8, table.entered + entered);
    after.slots[record] = Slot::default();
    table.place_mut(after, record).fill(0);
}

pub fn drop(call: &Call) -> Outcome {
    let table = open_table(call)?;
    let record = call.table.record(call.id).ok_or(refusal::STAGE)?;
    let mut after = call.table.clone();
    decide(&table, &mut after, record, 0);
    done(Vec::new(), Vec::new(), after)
}

pub fn state(call: &Call) -> Outcome {
    let table = layout::sound(&call.table).ok_or(refusal::STAGE)?;
    let opened = [table.servers as usize, table.own as usize, table.returns, table.least];
    let counts = [usize::from(table.closed), table.decided, table.entered, call.table.waiting()];
    let numbers = opened.into_iter().chain(counts).map(|number| number as u64).collect();
    done(numbers, Vec::new(), call.table.clone())
}

pub fn close(call: &Call) -> Outcome {
    let table = open_table(call)?;
    if call.table.waiting() > 0 {
        return Err(refusal::STAGE);
    }
    if table.entered < table.least {
        return Err(refusal::FEW);
    }
    if call.room < table.sheet.closing_length() {
        return Err(refusal::ROOM);
    }
    let mut bytes = vec![36, table.own as u8];
    bytes.extend((table.entered as u32).to_le_bytes());
    bytes.extend(&call.table.bytes[table.at.totals..table.at.ids]);
    let mut after = call.table.clone();
    after.bytes[1] = layout::CLOSED;
    done(Vec::new(), bytes, after)
}
