//! "A return": making the share messages at a workshop.

use crate::circuit::Circuit;
use crate::field;
use crate::judging::basis;
use crate::limits::check_servers;
use crate::refusal;
use crate::sheet::Sheet;
use crate::values;

/// The kind byte of a share message.
pub const SHARE: u8 = 33;

/// What making was given, after all refusals.
pub(crate) struct Order {
    /// The sheet.
    pub sheet: Sheet,
    /// The list of entries.
    pub entries: Vec<u64>,
}

/// Making's first refusals, in order: sheet, S, 5.
pub(crate) fn check_values(sheet: &[u8], servers: u32, values: &[u8]) -> Result<Order, u32> {
    let sheet = Sheet::read(sheet)?;
    check_servers(servers)?;
    let entries = values::encode(&sheet, values)?;
    Ok(Order { sheet, entries })
}

/// Making's refusals, in order: sheet, S, 5, 6, 14.
pub(crate) fn check(
    sheet: &[u8],
    servers: u32,
    values: &[u8],
    random: &[u8],
    room: usize,
) -> Result<Order, u32> {
    let order = check_values(sheet, servers, values)?;
    let (servers, sheet) = (servers as usize, &order.sheet);
    // "(S - 1) × (L + 2M + 6) + 4 random elements".
    let needed = (servers - 1) * sheet.share_elements() + 4;
    if random.len() != field::WIDTH * needed || !field::all_elements(random) {
        return Err(refusal::RANDOM);
    }
    if room < servers * sheet.share_length() {
        return Err(refusal::ROOM);
    }
    Ok(order)
}

/// Makes a return: the S share messages one after another in server order.
pub fn make(
    sheet: &[u8],
    servers: u32,
    id: u32,
    values: &[u8],
    random: &[u8],
    room: usize,
) -> Result<Vec<u8>, u32> {
    let order = check(sheet, servers, values, random, room)?;
    let random = field::elements(random).ok_or(refusal::RANDOM)?;
    // "Random elements come in this order: u_0, v_0, a, b, then the whole shares of
    // servers 1 to S - 1."
    let (free, shares) = random.split_at(4);
    let circuit = Circuit::of(&order.sheet);
    let whole = whole(&circuit, &order.entries, free);
    Ok(messages(id, &whole, shares))
}

/// The whole return, not yet split: the entries, f(0), g(0), h(0)..h(2M), a, b, c.
/// `free` holds u_0, v_0, a, b.
pub(crate) fn whole(circuit: &Circuit, entries: &[u64], free: &[u64]) -> Vec<u64> {
    let (u0, v0, a, b) = (free[0], free[1], free[2], free[3]);
    let run = circuit.run(entries, true, |_, left, right| field::mul(left, right));
    // f and g by their values at 0..M.
    let f = points(u0, &run.left);
    let g = points(v0, &run.right);
    let gates = circuit.multiplications() as u64;

    let mut whole = entries.to_vec();
    whole.push(u0);
    whole.push(v0);
    // "h = f × g", by its values at 0..2M: up to M those of f and g are given, past M
    // they are interpolated.
    whole.extend(f.iter().zip(&g).map(|(&f, &g)| field::mul(f, g)));
    whole.extend((gates + 1..=2 * gates).map(|x| {
        let basis = basis(gates, x);
        field::mul(combine(&basis, &f), combine(&basis, &g))
    }));
    // "a, b, c, where c = a × b".
    whole.extend([a, b, field::mul(a, b)]);
    whole
}

/// Splits a whole return. `shares` holds the whole shares of servers 1 to S - 1; "server
/// 0's share is what remains". Gives the messages one after another.
pub(crate) fn messages(id: u32, whole: &[u64], shares: &[u64]) -> Vec<u8> {
    let mut remains = whole.to_vec();
    for share in shares.chunks_exact(whole.len()) {
        for (rest, &element) in remains.iter_mut().zip(share) {
            *rest = field::sub(*rest, element);
        }
    }
    let mut out = Vec::new();
    let all = std::iter::once(remains.as_slice()).chain(shares.chunks_exact(whole.len()));
    for (server, share) in (0u8..).zip(all) {
        out.extend_from_slice(&header(id, server));
        for &element in share {
            field::put(&mut out, element);
        }
    }
    out
}

/// "Share message: byte 33, id (4 bytes, any), server number (1), the elements": all but the
/// elements.
pub(crate) fn header(id: u32, server: u8) -> [u8; 6] {
    let [i0, i1, i2, i3] = id.to_le_bytes();
    [SHARE, i0, i1, i2, i3, server]
}

/// A polynomial's values at 0 and at 1..M, in one list.
pub(crate) fn points(free: u64, inputs: &[u64]) -> Vec<u64> {
    let mut points = vec![free];
    points.extend_from_slice(inputs);
    points
}

/// The sum of weight times value.
pub(crate) fn combine(weights: &[u64], values: &[u64]) -> u64 {
    field::sum(weights.iter().zip(values).map(|(&w, &y)| field::mul(w, y)))
}
