//! The sheet reader and the circuit reader.

use second::field::P;
use second::gen::{self, Rng};
use second::{read_circuit, Sheet};

#[test]
fn sheet_refusals() {
    let read = |bytes: &[u8]| Sheet::read(bytes).map(|_| ());
    // Kinds and cut bodies.
    for kind in (0..=255).filter(|kind| !(17..=21).contains(kind)) {
        assert_eq!(read(&[kind]), Err(1));
        assert_eq!(read(&[17, kind, 2, 0, 0, 0]), Err(1));
    }
    assert_eq!(read(&[18]), Err(1));
    assert_eq!(read(&[19]), Err(1));
    assert_eq!(read(&[17, 17, 18]), Err(1));
    for body in 0..4 {
        for byte in [0, 1, 17, 255] {
            let cut = [vec![20], vec![byte; body]].concat();
            assert_eq!(read(&cut), Err(1));
            assert_eq!(read(&[vec![17; 300], cut].concat()), Err(1));
        }
    }
    // Counts.
    for count in 0..=255 {
        let choice = if (2..=64).contains(&count) {
            Ok(())
        } else {
            Err(2)
        };
        assert_eq!(read(&[18, count]), choice);
        let number = if (1..=24).contains(&count) {
            Ok(())
        } else {
            Err(2)
        };
        assert_eq!(read(&[19, count]), number);
    }
    for (top, answer) in [
        (0, Err(2)),
        (1, Ok(())),
        (2, Ok(())),
        (200, Ok(())),
        (256, Ok(())),
        (65_536, Ok(())),
        (16_777_214, Ok(())),
        (16_777_215, Ok(())),
        (16_777_216, Err(2)),
        (16_777_217, Err(2)),
        (1 << 31, Err(2)),
        (u32::MAX, Err(2)),
    ] {
        assert_eq!(read(&[&[20], &top.to_le_bytes()[..]].concat()), answer);
    }
    // The earlier record wins, whatever its number.
    assert_eq!(read(&[18, 1, 99]), Err(2));
    assert_eq!(read(&[99, 18, 1]), Err(1));
    assert_eq!(read(&[19, 0, 18]), Err(2));
    assert_eq!(read(&[20, 0, 0, 0, 0, 99]), Err(2));
    assert_eq!(read(&[20, 0, 0, 0, 1, 20]), Err(2));
    assert_eq!(read(&[99, 20, 0, 0, 0, 0]), Err(1));
    // Total limits last.
    assert_eq!(read(&[]), Err(2));
    assert_eq!(read(&[17; 256]), Ok(()));
    assert_eq!(read(&[17; 257]), Err(2));
    assert_eq!(read(&[18, 64, 18, 64, 18, 64, 18, 64]), Ok(()));
    assert_eq!(read(&[18, 64, 18, 64, 18, 64, 18, 64, 17]), Err(2));
    // Five of 49 entries and one of 11; 85 of 3 entries and one more.
    let high = [20, 255, 255, 255, 0].repeat(5);
    assert_eq!(read(&[&high[..], &[20, 31, 0, 0, 0]].concat()), Ok(()));
    assert_eq!(read(&[&high[..], &[20, 32, 0, 0, 0]].concat()), Err(2));
    let low = [20, 1, 0, 0, 0].repeat(85);
    assert_eq!(read(&[&low[..], &[17]].concat()), Ok(()));
    assert_eq!(read(&[&low[..], &[17, 17]].concat()), Err(2));
    let mut long = vec![17; 300];
    long.push(99);
    assert_eq!(read(&long), Err(1));
    long[300] = 18;
    assert_eq!(read(&long), Err(1));
    long.push(1);
    assert_eq!(read(&long), Err(2));
    assert_eq!(read(&vec![17; 1_000_000]), Err(2));
}

#[test]
fn sheets_with_points() {
    let read = |bytes: &[u8]| Sheet::read(bytes).map(|_| ());
    assert_eq!(read(&[21]), Err(1));
    assert_eq!(read(&[17, 17, 21]), Err(1));
    for count in 0..=255 {
        let answer = (1..=12).contains(&count).then_some(()).ok_or(2);
        assert_eq!(read(&[21, count]), answer);
    }
    assert_eq!(read(&[21, 0, 99]), Err(2));
    assert_eq!(read(&[21, 13, 21]), Err(2));
    assert_eq!(read(&[22, 21, 13]), Err(1));
    // 9 of 28 entries and 4 more; 42 of 6 entries and 4 more.
    let points = [21, 12].repeat(9);
    assert_eq!(read(&[&points[..], &[17; 4]].concat()), Ok(()));
    assert_eq!(read(&[&points[..], &[17; 5]].concat()), Err(2));
    let points = [21, 1].repeat(42);
    assert_eq!(read(&[&points[..], &[17; 4]].concat()), Ok(()));
    assert_eq!(read(&[&points[..], &[17; 5]].concat()), Err(2));
    assert_eq!(read(&[&points[..], &[21, 1]].concat()), Err(2));
}

/// A circuit from steps in bytes.
fn steps(parts: &[&[u8]]) -> Vec<u8> {
    parts.concat()
}

const CONSTANT: &[u8] = &[1, 5, 0, 0, 0];

const MULTIPLY: &[u8] = &[5, 0, 0, 0, 0];

const TEST: &[u8] = &[6, 0, 0];

/// The number with which a circuit of L entries is refused.
fn refused(entries: u32, bytes: &[u8]) -> Option<u32> {
    read_circuit(entries, bytes).err()
}

#[test]
fn circuit_refusals() {
    let good = steps(&[CONSTANT, MULTIPLY, TEST]);
    for entries in [1, 2, 256] {
        let read = read_circuit(entries, &good).unwrap();
        assert_eq!(
            (read.wires(), read.multiplications(), read.tests()),
            (2, 1, 1)
        );
    }
    // L before any step.
    for entries in [0, 257, 65_537, u32::MAX] {
        assert_eq!(refused(entries, &good), Some(2));
        assert_eq!(refused(entries, &[0]), Some(2));
    }
    // Bytes before any step.
    assert_eq!(refused(1, &vec![0; 17_921]), Some(2));
    assert_eq!(refused(1, &vec![0; 17_920]), Some(1));
    kinds_and_cuts(&good);
    constants(&good);
    wires_and_entries(&good);
    // The earlier record wins.
    assert_eq!(refused(1, &steps(&[&good, &[6, 9, 0], &[0]])), Some(3));
    let p = (P as u32).to_le_bytes();
    assert_eq!(refused(1, &steps(&[&good, &[1], &p, &[0]])), Some(2));
    total_limits();
}

/// Faulty kinds and every cut, after steps that are good.
fn kinds_and_cuts(good: &[u8]) {
    for kind in (0..=255).filter(|kind| !(1..=6).contains(kind)) {
        assert_eq!(refused(1, &[kind, 0, 0, 0, 0, 0, 0]), Some(1));
    }
    for (kind, length) in (1..=6).zip([4, 2, 4, 6, 4, 2]) {
        for cut in 0..length {
            let body = vec![0xFF; cut];
            let bytes = steps(&[good, &[kind], &body]);
            assert_eq!(refused(1, &bytes), Some(1));
        }
    }
}

/// Constants below p and not.
fn constants(good: &[u8]) {
    let p = (P as u32).to_le_bytes();
    let less = (P as u32 - 1).to_le_bytes();
    assert_eq!(refused(1, &steps(&[good, &[1], &p])), Some(2));
    assert_eq!(refused(1, &steps(&[good, &[1], &less])), None);
    assert_eq!(refused(1, &steps(&[good, &[4, 0, 0], &p])), Some(2));
    assert_eq!(refused(1, &steps(&[good, &[4, 0, 0], &less])), None);
    // Inside a record: the constant before the wire.
    assert_eq!(refused(1, &steps(&[good, &[4, 9, 0], &p])), Some(2));
    assert_eq!(refused(1, &steps(&[good, &[4, 9, 0], &less])), Some(3));
}

/// Steps on wires and entries, after steps that make wires 0 and 1.
fn wires_and_entries(good: &[u8]) {
    // A step does not name its own wire.
    for bad in [2, 3, 255] {
        assert_eq!(refused(1, &steps(&[good, &[3, bad, 0, 0, 0]])), Some(3));
        assert_eq!(refused(1, &steps(&[good, &[3, 0, 0, bad, 0]])), Some(3));
        assert_eq!(refused(1, &steps(&[good, &[5, bad, 0, 0, 0]])), Some(3));
        assert_eq!(refused(1, &steps(&[good, &[5, 0, 0, bad, 0]])), Some(3));
        assert_eq!(refused(1, &steps(&[good, &[6, bad, 0]])), Some(3));
    }
    assert_eq!(refused(1, &steps(&[good, &[6, 0, 1]])), Some(3));
    assert_eq!(refused(1, &steps(&[good, &[6, 1, 0]])), None);
    // Entries.
    assert_eq!(refused(3, &steps(&[good, &[2, 2, 0]])), None);
    assert_eq!(refused(3, &steps(&[good, &[2, 3, 0]])), Some(3));
    assert_eq!(refused(256, &steps(&[good, &[2, 255, 0]])), None);
    assert_eq!(refused(256, &steps(&[good, &[2, 0, 1]])), Some(3));
}

/// Too many and too few of everything.
fn total_limits() {
    assert_eq!(refused(1, &[]), Some(2));
    assert_eq!(refused(1, &steps(&[CONSTANT, MULTIPLY])), Some(2));
    assert_eq!(refused(1, &steps(&[CONSTANT, TEST])), Some(2));
    let many = |constants: usize, gates: usize, tests: usize| {
        let mut bytes = CONSTANT.repeat(constants);
        bytes.extend(MULTIPLY.repeat(gates));
        bytes.extend(TEST.repeat(tests));
        bytes
    };
    assert_eq!(refused(1, &many(2047, 1, 1)), None);
    assert_eq!(refused(1, &many(2048, 1, 1)), Some(2));
    assert_eq!(refused(1, &many(1792, 256, 512)), None);
    assert_eq!(refused(1, &many(1793, 256, 512)), Some(2));
    assert_eq!(refused(1, &many(1, 257, 1)), Some(2));
    assert_eq!(refused(1, &many(1, 1, 513)), Some(2));
    // These come last.
    let mut late = many(1, 257, 1);
    late.push(7);
    assert_eq!(refused(1, &late), Some(1));
    late.pop();
    late.extend([6, 255, 255]);
    assert_eq!(refused(1, &late), Some(3));
}

#[test]
fn random_circuits() {
    let mut rng = Rng::new(3);
    let mut numbers = [0; 4];
    for _ in 0..3000 {
        let (entries, bytes) = gen::circuit(&mut rng);
        let read = read_circuit(entries, &bytes).unwrap();
        assert_eq!(read.bytes(), bytes);
        let (entries, bytes) = gen::damaged_circuit(&mut rng);
        match read_circuit(entries, &bytes) {
            Ok(read) => {
                assert_eq!(read.bytes(), bytes);
                numbers[0] += 1;
            }
            Err(number) => numbers[number as usize] += 1,
        }
    }
    assert!(numbers.iter().all(|&count| count > 10), "{numbers:?}");
    assert!(numbers[0] < 600, "{numbers:?}");
}
