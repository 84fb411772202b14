// Every legal list of values of a small sheet as the same loops in Rust.
use crate::loops::read_sheet;

fn bytes_of(kind: u8) -> usize {
    match kind {
        17 => 1,
        20 => 5,
        _ => 2,
    }
}

fn values_of(column: &[u8]) -> u32 {
    match *column {
        [17] => 2,
        [18, n] => n as u32,
        [20, a, b, c, d] => u32::from_le_bytes([a, b, c, d]) + 1,
        [21, b] => 1 << (2 * b),
        _ => 1 << column[1],
    }
}

// The number of values of each column of a sheet that is read.
fn columns(s: &[u8]) -> impl Iterator<Item = u32> + '_ {
    let mut at = 0;
    std::iter::from_fn(move || {
        let column = &s[at..at + bytes_of(*s.get(at)?)];
        at += column.len();
        Some(values_of(column))
    })
}

fn write_column(out: &mut [u8], size: usize, place: usize, behind: u32, values: u32) {
    let (mut value, mut left) = (0u32, behind);
    for list in out.chunks_exact_mut(size) {
        list[place..place + 4].copy_from_slice(&value.to_le_bytes());
        left -= 1;
        if left == 0 {
            left = behind;
            value += 1;
            if value == values {
                value = 0;
            }
        }
    }
}

#[inline(never)]
pub fn every_return(s: &[u8], out: &mut [u8], lists: &mut u32, written: &mut usize) -> u32 {
    let size = match read_sheet(s) {
        Ok(counts) => 4 * counts.columns,
        Err(refusal) => return refusal,
    };
    let mut total = 1u64;
    for values in columns(s) {
        total *= values as u64;
        if 4096 < total {
            return 17;
        }
    }
    let length = size * total as usize;
    if out.len() < length {
        return 14;
    }
    let mut behind = total as u32;
    for (index, values) in columns(s).enumerate() {
        behind /= values;
        write_column(&mut out[..length], size, 4 * index, behind, values);
    }
    *lists = total as u32;
    *written = length;
    0
}
