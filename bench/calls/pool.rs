// The functions of libpool.a. A slice is passed as a pointer and a length. Each answers what it wrote or handed back,
// or the number of the refusal.
#[path = "../../include/pool.rs"]
mod c;

pub use c::pool_slot as Slot;

fn done<T>(answer: u32, result: T) -> Result<T, u32> {
    if answer == 0 {
        Ok(result)
    } else {
        Err(answer)
    }
}

// The nine numbers, in the order of the C function.
pub fn sizes(sheet: &[u8]) -> Result<[u32; 9], u32> {
    let mut out = [0; 9];
    let [c, e, p, w, m, t, b, s, n] = &mut out;
    let answer = unsafe { c::pool_sizes(sheet.as_ptr(), sheet.len(), c, e, p, w, m, t, b, s, n) };
    done(answer, out)
}

pub fn circuit(sheet: &[u8], out: &mut [u8]) -> Result<usize, u32> {
    let mut written = 0;
    let answer = unsafe { c::pool_circuit(sheet.as_ptr(), sheet.len(), out.as_mut_ptr(), out.len(), &mut written) };
    done(answer, written)
}

pub fn make(sheet: &[u8], servers: u32, id: u32, values: &[u8], random: &[u8], out: &mut [u8]) -> Result<usize, u32> {
    let (s, v, r) = (sheet, values, random);
    let (at, room, mut written) = (out.as_mut_ptr(), out.len(), 0);
    let answer = unsafe {
        c::pool_make(s.as_ptr(), s.len(), servers, id, v.as_ptr(), v.len(), r.as_ptr(), r.len(), at, room, &mut written)
    };
    done(answer, written)
}

pub fn make_seeded(
    sheet: &[u8],
    servers: u32,
    id: u32,
    values: &[u8],
    random: &[u8],
    seeds: &[u8],
    out: &mut [u8],
) -> Result<usize, u32> {
    let (s, v, r, k) = (sheet, values, random, seeds);
    let (at, room, mut written) = (out.as_mut_ptr(), out.len(), 0);
    let answer = unsafe {
        let (sheet, values, random, seeds) = (s.as_ptr(), v.as_ptr(), r.as_ptr(), k.as_ptr());
        let (n, m, e, b) = (s.len(), v.len(), r.len(), k.len());
        c::pool_make_seeded(sheet, n, servers, id, values, m, random, e, seeds, b, at, room, &mut written)
    };
    done(answer, written)
}

// The calls on a table take its three parts: bytes, the records of the returns that wait, the numbers of their shares.
pub fn open(
    servers: u32,
    own: u32,
    sheet: &[u8],
    returns: u32,
    least: u32,
    table: &mut [u8],
    slots: &mut [Slot],
    elements: &mut [u32],
) -> Result<usize, u32> {
    let (t, x, e, mut written) = (table, slots, elements, 0);
    let answer = unsafe {
        let (s, n) = (sheet.as_ptr(), sheet.len());
        let (slots, records, elements, numbers) = (x.as_mut_ptr(), x.len(), e.as_mut_ptr(), e.len());
        let (table, room) = (t.as_mut_ptr(), t.len());
        c::pool_open(servers, own, s, n, returns, least, table, room, slots, records, elements, numbers, &mut written)
    };
    done(answer, written)
}

pub fn share(
    table: &[u8],
    slots: &mut [Slot],
    elements: &mut [u32],
    message: &[u8],
    r: u64,
    s: u64,
    out: &mut [u8],
) -> Result<usize, u32> {
    let (t, x, e, m, mut written) = (table, slots, elements, message, 0);
    let answer = unsafe {
        let (slots, records, elements, numbers) = (x.as_mut_ptr(), x.len(), e.as_mut_ptr(), e.len());
        let (table, len, message, n) = (t.as_ptr(), t.len(), m.as_ptr(), m.len());
        let (to, room) = (out.as_mut_ptr(), out.len());
        c::pool_share(table, len, slots, records, elements, numbers, message, n, r, s, to, room, &mut written)
    };
    done(answer, written)
}

pub fn round_one(
    table: &[u8],
    slots: &mut [Slot],
    elements: &[u32],
    id: u32,
    joined: &[u8],
    out: &mut [u8],
) -> Result<usize, u32> {
    let (t, x, e, j, mut written) = (table, slots, elements, joined, 0);
    let answer = unsafe {
        let (slots, records, elements, numbers) = (x.as_mut_ptr(), x.len(), e.as_ptr(), e.len());
        let (table, len, joined, n) = (t.as_ptr(), t.len(), j.as_ptr(), j.len());
        let (to, room) = (out.as_mut_ptr(), out.len());
        c::pool_round_one(table, len, slots, records, elements, numbers, id, joined, n, to, room, &mut written)
    };
    done(answer, written)
}

// Whether the return is accepted; it awaits entry then.
pub fn round_two(
    table: &mut [u8],
    slots: &mut [Slot],
    elements: &mut [u32],
    id: u32,
    joined: &[u8],
) -> Result<bool, u32> {
    let (t, x, e, j, mut accepted) = (table, slots, elements, joined, 0);
    let answer = unsafe {
        let (slots, records, elements, numbers) = (x.as_mut_ptr(), x.len(), e.as_mut_ptr(), e.len());
        let (table, len, joined, n) = (t.as_mut_ptr(), t.len(), j.as_ptr(), j.len());
        c::pool_round_two(table, len, slots, records, elements, numbers, id, joined, n, &mut accepted)
    };
    done(answer, accepted == 1)
}

pub fn enter(table: &mut [u8], slots: &mut [Slot], elements: &mut [u32], id: u32) -> Result<(), u32> {
    let (t, x, e) = (table, slots, elements);
    let answer = unsafe {
        let (slots, records, elements, numbers) = (x.as_mut_ptr(), x.len(), e.as_mut_ptr(), e.len());
        c::pool_enter(t.as_mut_ptr(), t.len(), slots, records, elements, numbers, id)
    };
    done(answer, ())
}

pub fn drop(table: &mut [u8], slots: &mut [Slot], elements: &mut [u32], id: u32) -> Result<(), u32> {
    let (t, x, e) = (table, slots, elements);
    let answer = unsafe {
        let (slots, records, elements, numbers) = (x.as_mut_ptr(), x.len(), e.as_mut_ptr(), e.len());
        c::pool_drop(t.as_mut_ptr(), t.len(), slots, records, elements, numbers, id)
    };
    done(answer, ())
}

pub fn close(table: &mut [u8], slots: &[Slot], elements: &[u32], out: &mut [u8]) -> Result<usize, u32> {
    let (t, x, e, mut written) = (table, slots, elements, 0);
    let answer = unsafe {
        let (slots, records, elements, numbers) = (x.as_ptr(), x.len(), e.as_ptr(), e.len());
        let (to, room) = (out.as_mut_ptr(), out.len());
        c::pool_close(t.as_mut_ptr(), t.len(), slots, records, elements, numbers, to, room, &mut written)
    };
    done(answer, written)
}

// The count of entered returns, and the bytes written.
pub fn join(servers: u32, sheet: &[u8], returns: u32, joined: &[u8], out: &mut [u8]) -> Result<(u32, usize), u32> {
    let (s, j, at, room) = (sheet, joined, out.as_mut_ptr(), out.len());
    let (mut accepted, mut written) = (0, 0);
    let answer = unsafe {
        c::pool_join(servers, s.as_ptr(), s.len(), returns, j.as_ptr(), j.len(), at, room, &mut accepted, &mut written)
    };
    done(answer, (accepted, written))
}

// Determinant, slope and intercept.
pub fn line(servers: u32, sheet: &[u8], returns: u32, joined: &[u8], column: u32) -> Result<[i64; 3], u32> {
    let (s, j, mut out) = (sheet, joined, [0; 3]);
    let [d, a, b] = &mut out;
    let answer =
        unsafe { c::pool_line(servers, s.as_ptr(), s.len(), returns, j.as_ptr(), j.len(), column, d, a, b) };
    done(answer, out)
}
