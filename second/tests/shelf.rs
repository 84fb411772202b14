//! Messages on the shelf.

mod common;

use common::*;
use second::gen::Rng;
use second::{shelve, unshelve};

#[test]
fn by_hand() {
    let run = [10, 11, 20, 21, 30, 31];
    let stored = vec![10, 20, 30, 11, 21, 31];
    assert_eq!(shelve(3, 2, &run, 6), Ok(stored.clone()));
    assert_eq!(unshelve(3, 2, &stored, 6), Ok(run.to_vec()));
    assert_eq!(shelve(2, 3, &run, 6), Ok(vec![10, 21, 11, 30, 20, 31]));
    // One message, or messages of one byte, stay as they are.
    for (messages, width) in [(1, 6), (6, 1)] {
        assert_eq!(shelve(messages, width, &run, 6), Ok(run.to_vec()));
        assert_eq!(unshelve(messages, width, &run, 6), Ok(run.to_vec()));
    }
}

/// Each is the inverse of the other, and every byte is where the paper has it.
#[test]
fn there_and_back() {
    let mut rng = Rng::new(51);
    let widths: Vec<u32> = (1..=20).chain([63, 64, 65, 4095, 4096]).collect();
    for messages in 1..=64 {
        for &width in &widths {
            let (r, w) = (messages as usize, width as usize);
            let run = rng.bytes(r * w);
            let stored = shelve(messages, width, &run, ROOM).unwrap();
            assert_eq!(unshelve(messages, width, &stored, r * w), Ok(run.clone()));
            let back = unshelve(messages, width, &run, ROOM).unwrap();
            assert_eq!(shelve(messages, width, &back, r * w), Ok(run.clone()));
            assert_eq!(stored.len(), r * w);
            for (at, &byte) in stored.iter().enumerate() {
                assert_eq!(byte, run[at % r * w + at / r]);
            }
        }
    }
}

#[test]
fn refusals() {
    for call in [shelve, unshelve] {
        for (messages, width) in [(0, 1), (65, 1), (1, 0), (1, 4097), (4096, 64)] {
            for length in [0, 1, 65, 4097, 262_144] {
                assert_eq!(call(messages, width, &vec![0; length], 0), Err(2));
            }
        }
        // Products that come to 0 or to a small number where they wrap.
        for wide in [65_536, 65_537, u32::MAX] {
            assert_eq!(call(65_536, wide, &[], 0), Err(2));
            assert_eq!(call(wide, 4096, &[], 0), Err(2));
            assert_eq!(call(64, wide, &[], 0), Err(2));
        }
        for (messages, width) in [(1, 1), (3, 5), (64, 4096)] {
            let length = messages as usize * width as usize;
            let run = |length: usize| vec![7; length];
            assert_eq!(call(messages, width, &run(length), length), Ok(run(length)));
            assert_eq!(call(messages, width, &run(length), length - 1), Err(14));
            assert_eq!(call(messages, width, &run(length), 0), Err(14));
            assert_eq!(call(messages, width, &run(length - 1), ROOM), Err(19));
            assert_eq!(call(messages, width, &run(length + 1), 0), Err(19));
            assert_eq!(call(messages, width, &[], length), Err(19));
        }
    }
}
