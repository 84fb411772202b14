//! Random cases.

use super::{Case, Fit, Seeded, Shelf};
use crate::circuit::circuit;
use crate::gen::any::{
    any_id, any_least, any_limit, any_messages, any_room, any_servers, any_sheet, any_width,
};
use crate::gen::closings::{closing, damage_closings, line_totals, recount_input, split_totals};
use crate::gen::{circuits, sheets, Rng};
use crate::listing::every_return;
use crate::sheet::{Column, Sheet};

/// A sheet, S, values for it and the number of elements of a share. For a damaged sheet the rest
/// fits another sheet.
fn making(rng: &mut Rng) -> (Vec<u8>, u32, Vec<u8>, usize) {
    let max = rng.pick([4, 12, 12, 40, 40, 120]);
    let sheet = any_sheet(rng, max, 10);
    let servers = any_servers(rng, 10);
    let shape = Sheet::read(&sheet).or_else(|_| Sheet::read(&[17]));
    let (values, elements) = match &shape {
        Ok(shape) if rng.chance(15) => (sheets::damaged_values(rng, shape), shape.share_elements()),
        Ok(shape) => (sheets::values(rng, shape), shape.share_elements()),
        Err(_) => (Vec::new(), 0),
    };
    (sheet, servers, values, elements)
}

/// So many random elements, damaged now and then.
fn any_elements(rng: &mut Rng, count: usize) -> Vec<u8> {
    if rng.chance(15) {
        sheets::damaged_elements(rng, count)
    } else {
        sheets::elements(rng, count)
    }
}

/// So many seeds; now and then of another length.
fn any_seeds(rng: &mut Rng, count: usize) -> Vec<u8> {
    let mut seeds: Vec<u8> = (0..count).flat_map(|_| rng.seed()).collect();
    if rng.chance(15) {
        let right = seeds.len();
        let any = rng.index(300);
        let length = rng.pick([0, 32, right - 32, right - 1, right + 1, right + 32, any]);
        seeds.resize(length, 7);
    }
    seeds
}

impl Case {
    /// A random case: half of them good, the rest with one fault or more.
    pub fn random(rng: &mut Rng) -> Case {
        match rng.below(11) {
            0 => Case::random_sizes(rng),
            1 => Case::random_circuit(rng),
            2 => Case::random_read_circuit(rng),
            3 => Case::random_every_return(rng),
            4 => Case::random_make(rng),
            5 => Case::random_open(rng),
            6 => Case::random_join(rng),
            7 => Case::random_recount(rng),
            8 => Case::random_line(rng),
            9 => Case::random_make_seeded(rng),
            _ => Case::random_shelf(rng),
        }
    }

    /// What a sheet comes to.
    pub fn random_sizes(rng: &mut Rng) -> Case {
        let sheet = any_sheet(rng, 256, 40);
        Case::Sizes { sheet }
    }

    /// Sheet to circuit.
    pub fn random_circuit(rng: &mut Rng) -> Case {
        let sheet = any_sheet(rng, 256, 40);
        let needed = circuit(&sheet, usize::MAX).map_or(0, |bytes| bytes.len());
        let room = any_room(rng, needed, 20);
        Case::Circuit { sheet, room }
    }

    /// Reading a circuit.
    pub fn random_read_circuit(rng: &mut Rng) -> Case {
        let (entries, bytes) = match rng.below(10) {
            0..=2 => circuits::circuit(rng),
            // A sheet's own circuit, with the right L or another.
            3 => {
                let sheet = sheets::sheet(rng, 256);
                let bytes = circuit(&sheet, usize::MAX).unwrap_or_default();
                let right = Sheet::read(&sheet).map_or(0, |sheet| sheet.entries() as u32);
                (rng.pick([right, right, right - 1, right + 1, 256]), bytes)
            }
            _ => circuits::damaged_circuit(rng),
        };
        Case::ReadCircuit { entries, bytes }
    }

    /// Every legal return of a sheet, mostly a small one.
    pub fn random_every_return(rng: &mut Rng) -> Case {
        let sheet = if rng.chance(75) {
            sheets::small_sheet(rng)
        } else {
            any_sheet(rng, 256, 60)
        };
        let needed = every_return(&sheet, usize::MAX).map_or(0, |listing| listing.values.len());
        let room = any_room(rng, needed, 20);
        Case::EveryReturn { sheet, room }
    }

    /// Making a return.
    pub fn random_make(rng: &mut Rng) -> Case {
        let (sheet, servers, values, elements) = making(rng);
        let small = servers.clamp(2, 8) as usize;
        let random = any_elements(rng, (small - 1) * elements + 4);
        Case::Make {
            sheet,
            servers,
            id: any_id(rng),
            values,
            random,
            room: any_room(rng, small * (6 + 4 * elements), 15),
        }
    }

    /// Making a return from seeds.
    pub fn random_make_seeded(rng: &mut Rng) -> Case {
        let (sheet, servers, values, elements) = making(rng);
        let small = servers.clamp(2, 8) as usize;
        let needed = 6 + 4 * elements + 38 * (small - 1);
        Case::MakeSeeded(Seeded {
            sheet,
            servers,
            id: any_id(rng),
            values,
            random: any_elements(rng, 4),
            seeds: any_seeds(rng, small - 1),
            room: any_room(rng, needed, 15),
        })
    }

    /// Opening a table.
    pub fn random_open(rng: &mut Rng) -> Case {
        let sheet = any_sheet(rng, 256, 20);
        let servers = any_servers(rng, 15);
        let own = if rng.chance(15) {
            let any = rng.next_u64() as u32;
            rng.pick([servers, servers.saturating_add(1), 256, u32::MAX, any])
        } else {
            rng.below(u64::from(servers.clamp(1, 8))) as u32
        };
        let limit = any_limit(rng, &sheet, 40);
        Case::Open {
            servers,
            own,
            least: any_least(rng, limit, 15),
            sheet,
            limit,
        }
    }

    /// Joining closing messages.
    pub fn random_join(rng: &mut Rng) -> Case {
        let sheet = any_sheet(rng, 40, 10);
        let servers = any_servers(rng, 10);
        let limit = any_limit(rng, &sheet, 15);
        let published = Sheet::read(&sheet).map_or(1, |sheet| sheet.published());
        let count = match limit {
            0 => 0,
            _ => rng.below(u64::from(limit) + 1) as u32,
        };
        let mut joined = Vec::new();
        for server in 0..servers.clamp(2, 8) {
            joined.extend(closing(rng, server, count, published));
        }
        if rng.chance(40) {
            damage_closings(rng, &mut joined, published, limit);
        }
        Case::Join {
            servers,
            sheet,
            limit,
            joined,
            room: any_room(rng, 4 * published, 15),
        }
    }

    /// The line of a column.
    pub fn random_line(rng: &mut Rng) -> Case {
        let mut sheet = any_sheet(rng, 60, 8);
        if rng.chance(85) {
            let bits = rng.between(1, 12) as u8;
            sheet.extend([21, bits]);
        }
        let servers = any_servers(rng, 8);
        let limit = any_limit(rng, &sheet, 15);
        let read = Sheet::read(&sheet);
        let column = any_column(rng, read.as_ref().map_or(&[], |sheet| sheet.columns()));
        let count = rng.between(0, u64::from(limit.min(1024))) as u32;
        let published = read.as_ref().map_or(1, |sheet| sheet.published());
        let totals = match &read {
            Ok(sheet) => line_totals(rng, sheet, column, count),
            Err(_) => vec![0; published],
        };
        let mut joined = split_totals(rng, servers.clamp(2, 8), count, &totals);
        if rng.chance(25) {
            damage_closings(rng, &mut joined, published, limit);
        }
        Case::Line(Fit {
            servers,
            sheet,
            limit,
            joined,
            column,
        })
    }

    /// The text of recount.
    pub fn random_recount(rng: &mut Rng) -> Case {
        let mut input = match Case::random_join(rng) {
            Case::Join {
                servers,
                sheet,
                limit,
                joined,
                ..
            } => recount_input(servers, &sheet, limit, &joined),
            _ => Vec::new(),
        };
        damage_input(rng, &mut input);
        Case::Recount { input }
    }

    /// Messages stored by place or brought back.
    pub fn random_shelf(rng: &mut Rng) -> Case {
        let messages = any_messages(rng, 10);
        let width = any_width(rng, 10);
        let length = messages.min(64) as usize * width.min(4096) as usize;
        let wrong = rng.index(length + 64);
        let length = match rng.below(100) {
            0..80 => length,
            _ => rng.pick([0, length.saturating_sub(1), length + 1, wrong]),
        };
        let run = rng.bytes(length);
        let room = any_room(rng, length, 15);
        let shelf = Shelf {
            messages,
            width,
            run,
            room,
        };
        if rng.chance(50) {
            Case::Shelve(shelf)
        } else {
            Case::Unshelve(shelf)
        }
    }
}

/// The number of a column, mostly of kind 21.
fn any_column(rng: &mut Rng, columns: &[Column]) -> u32 {
    let last = columns.len() as u32;
    let points: Vec<u32> = (1..=last)
        .filter(|&number| matches!(columns[number as usize - 1], Column::Point(_)))
        .collect();
    if points.is_empty() || rng.chance(12) {
        let any = rng.between(0, u64::from(last) + 1) as u32;
        let far = rng.pick([256, 65_537, u32::MAX]);
        return rng.pick([0, last + 1, any, any, far]);
    }
    points[rng.index(points.len())]
}

/// Puts a fault into the input of recount, or none.
fn damage_input(rng: &mut Rng, input: &mut Vec<u8>) {
    match rng.below(10) {
        // Cut anywhere, often in the head.
        0 => {
            let keep = rng.index(input.len() + 1);
            input.truncate(keep);
        }
        1 => {
            let keep = rng.index(input.len().min(12) + 1);
            input.truncate(keep);
        }
        // A sheet length that does not fit.
        2 if input.len() >= 2 => {
            let wrong = rng.pick([0u16, 1, 2, 300, 65_535]);
            input[..2].copy_from_slice(&wrong.to_le_bytes());
        }
        // A sheet of the greatest length.
        3 => {
            let mut sheet = vec![17; 65_535];
            if rng.chance(50) {
                sheet[65_534] = rng.pick([18, 19, 20, 21, 22]);
            }
            *input = recount_input(2, &sheet, 1, &[]);
            let cut = rng.below(5) as usize;
            input.truncate(input.len() - cut);
        }
        _ => {}
    }
}
