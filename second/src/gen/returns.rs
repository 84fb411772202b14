//! Returns, honest and not, and what they come to.

mod entries;

use super::Rng;
use crate::circuit::Circuit;
use crate::field::{self, P};
use crate::judging::{basis, share_parts, Held, Parts};
use crate::making::{self, combine, points};
use crate::seeds::{self, expand, SEED, SEED_LENGTH};
use crate::sheet::{Column, Sheet};
use entries::{false_bits, false_entries, true_entries};

/// A seed.
type Seed = [u8; SEED_LENGTH];

/// Where a return comes from.
#[derive(Clone, Copy, Debug, PartialEq, Eq)]
pub enum Origin {
    /// Made by the rules.
    Honest,
    /// Made by the rules, then an element or more changed at one server or more.
    Altered,
    /// False entries, with the polynomials that belong to them: the tests tell.
    FalseEntries,
    /// False entries with every gate output claimed to be what the tests ask for: h is not
    /// f × g.
    Forged,
    /// The same, with h bent so that it meets f × g at the r that will be drawn.
    Lucky,
    /// c is not a × b.
    FalseTriple,
    /// c is not a × b, and h is bent so that both faults cancel at the r that will be
    /// drawn.
    LuckyTriple,
}

/// A return on its way: S share messages, and the challenges it will meet.
#[derive(Clone, Debug, PartialEq, Eq)]
pub struct Return {
    /// Its id.
    pub id: u32,
    /// Where it comes from.
    pub origin: Origin,
    /// The share message of each server.
    pub shares: Vec<Vec<u8>>,
    /// The challenge r.
    pub r: u64,
    /// The challenge s.
    pub s: u64,
}

/// Challenges in range, often at the edges: r on an interpolation point of h, s = 0.
pub fn pair(rng: &mut Rng, multiplications: usize) -> (u64, u64) {
    let gates = multiplications as u64;
    let r = match rng.below(8) {
        0 => gates + 1,
        1 => rng.between(gates + 1, 2 * gates),
        2 => 2 * gates + 1,
        3 => P - 1,
        _ => rng.between(gates + 1, P - 1),
    };
    let s = match rng.below(8) {
        0 => 0,
        1 => 1,
        2 => P - 1,
        _ => rng.below(P),
    };
    (r, s)
}

impl Return {
    /// A random return of an origin under an id, in long messages.
    pub fn random(rng: &mut Rng, sheet: &Sheet, servers: u32, id: u32, origin: Origin) -> Return {
        let entries = entries_of(rng, sheet, origin);
        let seeds = vec![None; servers as usize - 1];
        Return::of(rng, sheet, id, origin, &entries, &seeds)
    }

    /// A random return of an origin under an id, in which servers 1 to S - 1 get a seed or a long
    /// message: all the same, or each by itself.
    pub fn mixed(rng: &mut Rng, sheet: &Sheet, servers: u32, id: u32, origin: Origin) -> Return {
        let entries = entries_of(rng, sheet, origin);
        let percent = rng.pick([0, 30, 70, 100]);
        let seeds: Vec<Option<Seed>> = (1..servers)
            .map(|_| rng.chance(percent).then(|| rng.seed()))
            .collect();
        Return::of(rng, sheet, id, origin, &entries, &seeds)
    }

    /// A return of L entries, valid or not, with the polynomials that belong to them.
    pub fn of_entries(
        rng: &mut Rng,
        sheet: &Sheet,
        servers: u32,
        id: u32,
        entries: &[u64],
    ) -> Return {
        let seeds = vec![None; servers as usize - 1];
        Return::of(rng, sheet, id, Origin::FalseEntries, entries, &seeds)
    }

    /// A return of these entries, with the origin's fault; those of servers 1 to S - 1 that have
    /// a seed get it in place of elements.
    fn of(
        rng: &mut Rng,
        sheet: &Sheet,
        id: u32,
        origin: Origin,
        entries: &[u64],
        seeds: &[Option<Seed>],
    ) -> Return {
        let circuit = Circuit::of(sheet);
        let (r, s) = pair(rng, sheet.multiplications());
        let free = [(); 4].map(|()| rng.element());
        let mut whole = making::whole(&circuit, entries, &free);
        falsify(rng, sheet, &circuit, origin, &mut whole, r);
        let random: Vec<u64> = seeds
            .iter()
            .flat_map(|seed| match seed {
                Some(seed) => expand(seed, id, whole.len()),
                None => whole.iter().map(|_| rng.element()).collect(),
            })
            .collect();
        let messages = making::messages(id, &whole, &random);
        let mut shares: Vec<Vec<u8>> = messages
            .chunks_exact(sheet.share_length())
            .map(<[u8]>::to_vec)
            .collect();
        for (server, (share, seed)) in (1u8..).zip(shares[1..].iter_mut().zip(seeds)) {
            if let Some(seed) = seed {
                *share = seeds::message(id, server, seed).to_vec();
            }
        }
        if origin == Origin::Altered {
            alter(rng, &mut shares, whole.len());
        }
        Return {
            id,
            origin,
            shares,
            r,
            s,
        }
    }
}

/// Entries for a return of an origin.
fn entries_of(rng: &mut Rng, sheet: &Sheet, origin: Origin) -> Vec<u64> {
    match origin {
        Origin::FalseEntries => false_entries(rng, sheet),
        Origin::Forged | Origin::Lucky => false_bits(rng, sheet),
        _ => true_entries(rng, sheet),
    }
}

/// Puts the origin's fault into a whole return that will meet r.
fn falsify(
    rng: &mut Rng,
    sheet: &Sheet,
    circuit: &Circuit,
    origin: Origin,
    whole: &mut [u64],
    r: u64,
) {
    match origin {
        Origin::Honest | Origin::Altered | Origin::FalseEntries => {}
        Origin::Forged => claim_valid(sheet, whole),
        Origin::Lucky => {
            claim_valid(sheet, whole);
            bend(rng, circuit, whole, r);
        }
        Origin::FalseTriple | Origin::LuckyTriple => {
            let delta = rng.between(1, P - 1);
            if let Some(c) = whole.last_mut() {
                *c = field::add(*c, delta);
            }
            if origin == Origin::LuckyTriple {
                bend(rng, circuit, whole, r);
            }
        }
    }
}

/// Changes an element or more of shares of so many elements; of a seed a byte.
fn alter(rng: &mut Rng, shares: &mut [Vec<u8>], elements: usize) {
    for _ in 0..rng.between(1, 3) {
        let server = rng.index(shares.len());
        if shares[server][0] == SEED {
            let at = 6 + rng.index(SEED_LENGTH);
            shares[server][at] ^= rng.between(1, 255) as u8;
            continue;
        }
        let at = 6 + 4 * rng.index(elements);
        let element = &mut shares[server][at..at + 4];
        let old = field::words(element).map(u64::from).sum();
        let new = field::add(old, rng.between(1, P - 1));
        element.copy_from_slice(&field::bytes(new));
    }
}

/// Where h(0) stands in a whole return.
fn h_start(circuit: &Circuit) -> usize {
    circuit.entries() + 2
}

/// Claims for h(1)..h(M) what the tests ask for: the entries for x × x and x × y, else 0.
fn claim_valid(sheet: &Sheet, whole: &mut [u64]) {
    let (entries, rest) = whole.split_at_mut(sheet.entries());
    let mut outputs = rest[3..].iter_mut();
    let mut start = 0;
    for column in sheet.columns() {
        let products = match column {
            Column::Point(_) => vec![entries[start + 1], entries[start + 3]],
            _ => Vec::new(),
        };
        let checks = column.multiplications() - products.len();
        let claims = std::iter::repeat_n(0, checks).chain(products);
        for (claim, output) in claims.zip(outputs.by_ref()) {
            *output = claim;
        }
        start += column.entries();
    }
}

/// Changes one of h(M + 1)..h(2M) so that sigma's sum is 0 at r.
fn bend(rng: &mut Rng, circuit: &Circuit, whole: &mut [u64], r: u64) {
    let gates = circuit.multiplications();
    let long = basis(2 * gates as u64, r);
    // At least one of these points has a basis that is not 0 at r.
    let useful: Vec<usize> = (gates + 1..=2 * gates).filter(|&j| long[j] != 0).collect();
    if useful.is_empty() {
        return;
    }
    let j = useful[rng.index(useful.len())];
    // sigma = r × (f(r) g(r) - h(r)) + c - a b.
    let excess = sigma_sum(circuit, whole, r);
    let step = field::mul(excess, field::inverse(field::mul(r, long[j])));
    let at = h_start(circuit) + j;
    whole[at] = field::add(whole[at], step);
}

/// What the sigma of all servers add up to: r × (f(r) g(r) - h(r)) + c - a × b, on whole
/// values.
fn sigma_sum(circuit: &Circuit, whole: &[u64], r: u64) -> u64 {
    let parts = Parts::of(circuit, whole);
    let run = circuit.run(parts.entries, true, |t, _, _| parts.h[t]);
    let gates = circuit.multiplications() as u64;
    let short = basis(gates, r);
    let f = combine(&short, &points(parts.f0, &run.left));
    let g = combine(&short, &points(parts.g0, &run.right));
    let h = combine(&basis(2 * gates, r), parts.h);
    let gap = field::mul(r, field::sub(field::mul(f, g), h));
    field::add(gap, field::sub(parts.c, field::mul(parts.a, parts.b)))
}

/// The elements that a share message stands for: those that it holds, or those of its seed. `None`
/// when it does not fit the sheet.
pub fn elements_of(sheet: &Sheet, message: &[u8]) -> Option<Vec<u64>> {
    let own = u32::from(*message.get(5)?);
    match share_parts(sheet, own, message).ok()? {
        (_, Held::Elements(bytes)) => field::elements(bytes),
        (id, Held::Seed(seed)) => Some(expand(seed, id, sheet.share_elements())),
    }
}

/// The added-up elements of S share messages; `None` when they do not fit the sheet.
pub fn added_up(sheet: &Sheet, shares: &[Vec<u8>]) -> Option<Vec<u64>> {
    let mut whole = vec![0; sheet.share_elements()];
    for share in shares {
        let elements = elements_of(sheet, share)?;
        for (sum, element) in whole.iter_mut().zip(elements) {
            *sum = field::add(*sum, element);
        }
    }
    Some(whole)
}

/// Whether a pair lets a whole return in, worked out on whole values instead of shares.
/// `None` when it does not have L + 2M + 6 elements.
pub fn lets_in(sheet: &Sheet, whole: &[u64], r: u64, s: u64) -> Option<bool> {
    if whole.len() != sheet.share_elements() {
        return None;
    }
    let circuit = Circuit::of(sheet);
    let parts = Parts::of(&circuit, whole);
    let run = circuit.run(parts.entries, true, |t, _, _| parts.h[t]);
    let tests = run.tests.iter().zip(0..);
    let tau = field::sum(tests.map(|(&wire, k)| field::mul(wire, field::pow(s, k))));
    Some(tau == 0 && sigma_sum(&circuit, whole, r) == 0)
}
