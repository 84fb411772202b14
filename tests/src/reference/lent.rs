//! The second answer to opening and to the calls on a table: the second program's lent form, on parts that it is lent.

use second::lent::{self, Slot as TheirSlot};
use second::Verdict;

use crate::calls::{Call, Done, Function, Outcome};
use crate::layout::{Parts, Slot};
use crate::reference::standing;

/// The lent form's own records.
fn theirs(slots: &[Slot]) -> Vec<TheirSlot> {
    slots.iter().map(|&Slot { id, stage, r, s, d, e }| TheirSlot { id, stage, r, s, d, e }).collect()
}

fn ours(slots: &[TheirSlot]) -> Vec<Slot> {
    slots.iter().map(|&TheirSlot { id, stage, r, s, d, e }| Slot { id, stage, r, s, d, e }).collect()
}

/// The answer of the lent form; `None` for a call that is not on a table.
pub fn answer(call: &Call) -> Option<Outcome> {
    use Function::{Close, Drop, Enter, Open, RoundOne, RoundTwo, Share, State};
    match call.function {
        Open => Some(open(call)),
        Share | RoundOne | RoundTwo | Enter | Drop | Close | State => Some(on_table(call)),
        _ => None,
    }
}

fn open(call: &Call) -> Outcome {
    let (mut bytes, mut elements) = (vec![0xA5; call.room], vec![0xA5A5_A5A5; call.elements]);
    let mut slots = vec![TheirSlot { id: 7, ..TheirSlot::default() }; call.slots];
    let Call { servers, own, returns, least, .. } = *call;
    let length = lent::open(servers, own, &call.sheet, returns, least, &mut bytes, &mut slots, &mut elements)?;
    bytes.truncate(length);
    elements.truncate(lent::run_length(&call.sheet)?);
    let table = Parts { bytes, slots: ours(&slots), elements };
    Ok(Done { numbers: Vec::new(), signed: Vec::new(), bytes: Vec::new(), table })
}

fn on_table(call: &Call) -> Outcome {
    let Parts { mut bytes, slots, mut elements } = call.table.clone();
    let mut slots = theirs(&slots);
    let (t, s, e) = (&mut bytes[..], &mut slots[..], &mut elements[..]);
    let (id, message) = (call.id, &call.message[..]);
    let mut out = vec![0; call.room];
    let (numbers, written) = match call.function {
        Function::Share => (Vec::new(), lent::share(t, s, e, message, call.r, call.s, &mut out)?),
        Function::RoundOne => (Vec::new(), lent::round_one(t, s, e, id, message, &mut out)?),
        Function::RoundTwo => {
            let verdict = lent::round_two(t, s, e, id, message)?;
            (vec![u64::from(verdict == Verdict::Accepted)], 0)
        }
        Function::Enter => lent::enter(t, s, e, id).map(|()| (Vec::new(), 0))?,
        Function::Drop => lent::drop(t, s, e, id).map(|()| (Vec::new(), 0))?,
        Function::State => (standing(&lent::standing(t, s, e)?), 0),
        _ => (Vec::new(), lent::close(t, s, e, &mut out)?),
    };
    out.truncate(written);
    let table = Parts { bytes, slots: ours(&slots), elements };
    Ok(Done { numbers, signed: Vec::new(), bytes: out, table })
}
