// The sheet reader, the sizes of a sheet and the circuit writer as the same loops in Rust.
const P_LESS_ONE: u32 = 2147483646;

#[derive(Clone, Copy, Default, PartialEq, Debug)]
pub struct Counts {
    pub columns: usize,
    pub entries: usize,
    pub published: usize,
    pub gates: usize,
    pub tests: usize,
}

fn bytes_of(kind: u8) -> usize {
    match kind {
        17 => 1,
        18 | 19 | 21 => 2,
        20 => 5,
        _ => 0,
    }
}

// The number in the body of the column at a place: options, bits (of each number of a point) or the top.
fn body(s: &[u8], at: usize) -> u32 {
    match s[at] {
        17 => 0,
        20 => u32::from_le_bytes([s[at + 1], s[at + 2], s[at + 3], s[at + 4]]),
        _ => s[at + 1] as u32,
    }
}

// How many bits a top has.
fn bits(top: u32) -> u32 {
    32 - top.leading_zeros()
}

fn column(kind: u8, size: u32) -> Counts {
    let n = size as usize;
    match kind {
        17 => Counts { columns: 1, entries: 1, published: 1, gates: 1, tests: 1 },
        18 if (2..=64).contains(&n) => Counts { columns: 1, entries: n, published: n, gates: n, tests: n + 1 },
        19 if (1..=24).contains(&n) => Counts { columns: 1, entries: n + 1, published: 1, gates: n, tests: n + 1 },
        20 if (1..1 << 24).contains(&n) => {
            let b = bits(size) as usize;
            Counts { columns: 1, entries: 2 * b + 1, published: 1, gates: 2 * b, tests: 2 * b + 2 }
        }
        21 if (1..=12).contains(&n) => {
            Counts { columns: 1, entries: 2 * n + 4, published: 4, gates: 2 * n + 2, tests: 2 * n + 4 }
        }
        _ => Counts::default(),
    }
}

fn add(counts: &mut Counts, c: Counts) {
    if counts.entries <= 256 {
        counts.columns += c.columns;
        counts.entries += c.entries;
        counts.published += c.published;
        counts.gates += c.gates;
        counts.tests += c.tests;
    }
}

pub fn read_sheet(s: &[u8]) -> Result<Counts, u32> {
    let mut counts = Counts::default();
    let mut at = 0;
    while at < s.len() {
        let kind = s[at];
        if kind == 17 {
            add(&mut counts, column(17, 0));
            at += 1;
            continue;
        }
        let size = bytes_of(kind);
        if size == 0 || s.len() - at < size {
            return Err(1);
        }
        let c = column(kind, body(s, at));
        if c.entries == 0 {
            return Err(2);
        }
        add(&mut counts, c);
        at += size;
    }
    if (1..=256).contains(&counts.entries) {
        Ok(counts)
    } else {
        Err(2)
    }
}

// Reading alone: the counts that other calls take from a sheet, in the first places.
#[inline(never)]
pub fn reading(s: &[u8], out: &mut [u32; 9]) -> u32 {
    match read_sheet(s) {
        Ok(c) => {
            let counts = [c.columns, c.entries, c.published, c.gates, c.tests];
            out[..5].copy_from_slice(&counts.map(|n| n as u32));
            0
        }
        Err(refusal) => refusal,
    }
}

// Of a sheet that was read: the wires and bytes of its circuit, and its largest value, 1 without numbers.
fn weigh(s: &[u8]) -> (usize, usize, usize) {
    let (mut wires, mut bytes, mut most, mut at) = (1, 5, 1, 0);
    while at < s.len() {
        let n = body(s, at) as usize;
        let (w, b, largest) = match s[at] {
            17 => (3, 16, 1),
            18 => (4 * n, 21 * n + 3, 1),
            19 => (5 * n + 2, 28 * n + 13, (1 << n) - 1),
            21 => (10 * n + 12, 56 * n + 72, ((1 << n) - 1) * ((1 << n) - 1)),
            _ => {
                let b = bits(n as u32) as usize;
                (10 * b + 4, 56 * b + 26, n)
            }
        };
        wires += w;
        bytes += b;
        most = most.max(largest);
        at += bytes_of(s[at]);
    }
    (wires, bytes, most)
}

// The nine numbers in the order of the C function.
#[inline(never)]
pub fn sizes(s: &[u8], out: &mut [u32; 9]) -> u32 {
    match read_sheet(s) {
        Ok(c) => {
            let (wires, bytes, largest) = weigh(s);
            let share = 6 + 4 * (c.entries + 2 * c.gates + 6);
            let returns = (P_LESS_ONE as usize / largest).min(1024);
            let all = [c.columns, c.entries, c.published, wires, c.gates, c.tests, bytes, share, returns];
            *out = all.map(|n| n as u32);
            0
        }
        Err(refusal) => refusal,
    }
}

fn put(out: &mut [u8], at: usize, bytes: &[u8]) -> usize {
    out[at..at + bytes.len()].copy_from_slice(bytes);
    at + bytes.len()
}

fn put_one(out: &mut [u8], at: usize, kind: u8, a: u32) -> usize {
    let a = (a as u16).to_le_bytes();
    put(out, at, &[kind, a[0], a[1]])
}

fn put_pair(out: &mut [u8], at: usize, kind: u8, a: u32, b: u32) -> usize {
    let next = put_one(out, at, kind, a);
    put(out, next, &(b as u16).to_le_bytes())
}

fn put_scale(out: &mut [u8], at: usize, a: u32, constant: u32) -> usize {
    let next = put_one(out, at, 4, a);
    put(out, next, &constant.to_le_bytes())
}

fn bit_checks(out: &mut [u8], at: usize, n: u32, e: u32, w: u32) -> usize {
    let mut place = at;
    for i in 0..n {
        let w = w + 3 * i;
        place = put_one(out, place, 2, e + i);
        place = put_pair(out, place, 3, w, 0);
        place = put_pair(out, place, 5, w, w + 1);
        place = put_one(out, place, 6, w + 2);
    }
    place
}

fn put_choice(out: &mut [u8], at: usize, n: u32, e: u32, w: u32) -> usize {
    let mut place = bit_checks(out, at, n, e, w);
    let mut sum = 0;
    for i in 0..n {
        place = put_pair(out, place, 3, sum, w + 3 * i);
        sum = w + 3 * n + i;
    }
    put_one(out, place, 6, sum)
}

// Adds n bits, the first at wire w, to the sum at wire q, which is the last one, and tests it.
fn put_sum(out: &mut [u8], at: usize, n: u32, w: u32, q: u32) -> usize {
    let mut place = at;
    for i in 0..n {
        place = put_scale(out, place, w + 3 * i, 1 << i);
        place = put_pair(out, place, 3, q + 2 * i, q + 2 * i + 1);
    }
    put_one(out, place, 6, q + 2 * n)
}

fn put_number(out: &mut [u8], at: usize, n: u32, e: u32, w: u32) -> usize {
    let mut place = put_one(out, at, 2, e);
    place = bit_checks(out, place, n, e + 1, w + 1);
    place = put_scale(out, place, w, P_LESS_ONE);
    put_sum(out, place, n, w + 1, w + 1 + 3 * n)
}

fn put_top(out: &mut [u8], at: usize, top: u32, e: u32, w: u32) -> usize {
    let n = bits(top);
    let q = w + 1 + 6 * n;
    let mut place = put_one(out, at, 2, e);
    place = bit_checks(out, place, 2 * n, e + 1, w + 1);
    place = put_scale(out, place, w, P_LESS_ONE);
    place = put_sum(out, place, n, w + 1, q);
    place = put(out, place, &[1]);
    place = put(out, place, &(P_LESS_ONE + 1 - top).to_le_bytes());
    place = put_pair(out, place, 3, q + 2 * n + 1, w);
    put_sum(out, place, n, w + 1 + 3 * n, q + 2 * n + 2)
}

// Multiplies two wires as wire w, and tests that wire `claimed` is the product.
fn put_product(out: &mut [u8], at: usize, left: u32, right: u32, claimed: u32, w: u32) -> usize {
    let mut place = put_pair(out, at, 5, left, right);
    place = put_scale(out, place, claimed, P_LESS_ONE);
    place = put_pair(out, place, 3, w, w + 1);
    put_one(out, place, 6, w + 2)
}

fn put_point(out: &mut [u8], at: usize, n: u32, e: u32, w: u32) -> usize {
    let mut place = at;
    for i in 0..4 {
        place = put_one(out, place, 2, e + i);
    }
    for (value, i) in [(w, 0), (w + 2, 1)] {
        let first = w + 4 + i * (5 * n + 1);
        place = bit_checks(out, place, n, e + 4 + i * n, first);
        place = put_scale(out, place, value, P_LESS_ONE);
        place = put_sum(out, place, n, first, first + 3 * n);
    }
    place = put_product(out, place, w, w, w + 1, w + 6 + 10 * n);
    put_product(out, place, w, w + 2, w + 3, w + 9 + 10 * n)
}

#[inline(never)]
pub fn circuit(s: &[u8], out: &mut [u8], written: &mut usize) -> u32 {
    if let Err(refusal) = read_sheet(s) {
        return refusal;
    }
    let (_, length, _) = weigh(s);
    if out.len() < length {
        return 14;
    }
    let mut place = put(out, 0, &[1]);
    place = put(out, place, &P_LESS_ONE.to_le_bytes());
    let (mut at, mut e, mut w) = (0, 0, 1);
    while at < s.len() {
        let n = body(s, at);
        let (entries, wires);
        (place, entries, wires) = match s[at] {
            17 => (bit_checks(out, place, 1, e, w), 1, 3),
            18 => (put_choice(out, place, n, e, w), n, 4 * n),
            19 => (put_number(out, place, n, e, w), n + 1, 5 * n + 2),
            21 => (put_point(out, place, n, e, w), 2 * n + 4, 10 * n + 12),
            _ => (put_top(out, place, n, e, w), 2 * bits(n) + 1, 10 * bits(n) + 4),
        };
        e += entries;
        w += wires;
        at += bytes_of(s[at]);
    }
    *written = length;
    0
}
