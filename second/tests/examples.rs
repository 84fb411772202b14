//! Document 01's "Examples at the bench".

mod common;

use common::*;
use second::field::P;
use second::gen::added_up;
use second::{circuit, close, join, make, open, read_circuit, recount, refusal, share};
use second::{Joined, Sheet, Verdict};

const YES_NO: [u8; 1] = [17];

/// A whole return of the sheet 17, split over two servers.
fn split(id: u32, whole: [u32; 9]) -> Vec<Vec<u8>> {
    let random = [7, 2_147_483_646, 0, 99, 1 << 30, 5, 6, 1_000_000_007, 3];
    let rest: Vec<u32> = whole
        .iter()
        .zip(&random)
        .map(|(&all, &part)| ((u64::from(all) + P - part as u64) % P) as u32)
        .collect();
    let random: Vec<u32> = random.iter().map(|&part| part as u32).collect();
    vec![share_message(id, 0, &rest), share_message(id, 1, &random)]
}

#[test]
fn circuit_of_yes_no() {
    let bytes = hex("01 FE FF FF 7F 02 00 00 03 01 00 00 00 05 01 00 02 00 06 03 00");
    assert_eq!(circuit(&YES_NO, 21), Ok(bytes.clone()));
    let read = read_circuit(1, &bytes).unwrap();
    assert_eq!(
        (read.entries(), read.multiplications(), read.tests()),
        (1, 1, 1)
    );
    let sheet = Sheet::read(&YES_NO).unwrap();
    assert_eq!(sheet.share_length(), 42);
    assert_eq!(
        (sheet.entries(), sheet.multiplications(), sheet.tests()),
        (1, 1, 1)
    );
}

/// Yes with u_0 = 2, v_0 = 3, a = 5, b = 7 for S servers.
fn yes(servers: u32) -> Vec<Vec<u8>> {
    let mut random = vec![2, 3, 5, 7];
    for i in 0..9 * u64::from(servers - 1) {
        random.push(((i * 238_609_294 + 17) % P) as u32);
    }
    let room = 42 * servers as usize;
    let messages = make(
        &YES_NO,
        servers,
        0xA1B2_C3D4,
        &words(&[1]),
        &words(&random),
        room,
    )
    .unwrap();
    assert_eq!(messages.len(), room);
    messages.chunks(42).map(<[u8]>::to_vec).collect()
}

#[test]
fn yes_has_this_h() {
    let sheet = Sheet::read(&YES_NO).unwrap();
    for servers in 2..=8 {
        let shares = yes(servers);
        for (server, share) in shares.iter().enumerate() {
            assert_eq!(share[..5], [33, 0xD4, 0xC3, 0xB2, 0xA1]);
            assert_eq!(share[5], server as u8);
        }
        let whole = added_up(&sheet, &shares).unwrap();
        // The entry, f(0), g(0), h(0..2), a, b, c.
        assert_eq!(whole, [1, 2, 3, 6, 0, 0, 5, 7, 35]);
    }
}

#[test]
fn yes_at_four() {
    for servers in 2..=8 {
        for s in [0, 1, 12_345, P - 1] {
            let mut tables = open_all(servers, &YES_NO, 1);
            let (first, second, verdict) = judge(&mut tables, &yes(servers), 4, s);
            assert_eq!(sums(&first), (2_147_483_640, 2_147_483_604));
            assert_eq!(sums(&second), (0, 0));
            assert_eq!(verdict, Verdict::Accepted);
        }
    }
}

#[test]
fn false_entry_two() {
    let (a, b) = (11, 13);
    let whole = [2, 2, 3, 6, 0, 2_147_483_645, a, b, a * b];
    let shares = split(1, whole);

    let mut tables = open_all(2, &YES_NO, 10);
    let (_, second, verdict) = judge(&mut tables, &shares, 2, 5);
    assert_eq!(sums(&second), (0, 0));
    assert_eq!(verdict, Verdict::Accepted);

    let mut tables = open_all(2, &YES_NO, 10);
    let (_, second, verdict) = judge(&mut tables, &shares, 3, 5);
    assert_eq!(sums(&second), (2_147_483_629, 0));
    assert_eq!(verdict, Verdict::Rejected);
}

#[test]
fn range_of_r() {
    let shares = yes(2);
    for (r, expected) in [
        (1, Err(refusal::CHALLENGE)),
        (2, Ok(())),
        (P - 1, Ok(())),
        (P, Err(refusal::CHALLENGE)),
    ] {
        let mut table = open(2, 0, &YES_NO, 1, 1).unwrap();
        let answer = share(&mut table, &shares[0], r, 0, ONE_BYTES);
        assert_eq!(answer.map(|_| ()), expected, "r = {r}");
    }
}

#[test]
fn twenty_four_bits() {
    assert!(open(2, 0, &[19, 24], 128, 1).is_ok());
    assert_eq!(
        open(2, 0, &[19, 24], 129, 1).err(),
        Some(refusal::WRAPS),
        "129 times 2^24 - 1 is past p"
    );
    assert_eq!(128 * ((1u64 << 24) - 1), 2_147_483_520);
}

#[test]
fn sheets_read_and_refused() {
    assert_eq!(circuit(&[18, 1], ROOM), Err(2));
    assert_eq!(circuit(&[18, 65], ROOM), Err(2));
    assert!(circuit(&[18, 2], ROOM).is_ok());
    assert!(circuit(&[18, 64], ROOM).is_ok());
    assert_eq!(circuit(&[], ROOM), Err(2));
    // A lone byte 20 is a cut body.
    assert_eq!(circuit(&[20], ROOM), Err(1));
    assert_eq!(circuit(&[21], ROOM), Err(1));
    assert_eq!(circuit(&[22], ROOM), Err(1));
}

/// The input of recount in the example.
fn recount_example() -> Vec<u8> {
    let mut input = vec![3, 0, 17, 18, 3, 2, 10, 0];
    input.extend(closing(0, 3, &[5, 7, 2_147_483_646, 0]));
    input.extend(closing(1, 3, &[2_147_483_644, 2_147_483_640, 3, 1]));
    input
}

#[test]
fn recount_text() {
    let text = "accepted 3\n1 0 2\n2 0 0\n2 1 2\n2 2 1\n";
    assert_eq!(recount(&recount_example()), text);
}

#[test]
fn recount_as_a_program() {
    use std::io::Write;
    use std::process::{Command, Stdio};
    let mut child = Command::new(env!("CARGO_BIN_EXE_recount"))
        .stdin(Stdio::piped())
        .stdout(Stdio::piped())
        .spawn()
        .unwrap();
    child
        .stdin
        .take()
        .unwrap()
        .write_all(&recount_example())
        .unwrap();
    let output = child.wait_with_output().unwrap();
    assert_eq!(
        String::from_utf8(output.stdout).unwrap(),
        "accepted 3\n1 0 2\n2 0 0\n2 1 2\n2 2 1\n"
    );
}

#[test]
fn recount_refusals() {
    let input = recount_example();
    // Cut before both bytes of N: 12, whatever the first bytes are.
    for length in 0..8 {
        assert_eq!(recount(&input[..length]), "refused 12\n", "{length} bytes");
    }
    // Nothing after N, and cut messages: joining's number.
    for length in 8..input.len() {
        assert_eq!(recount(&input[..length]), "refused 12\n", "{length} bytes");
    }
    let mut longer = input.clone();
    longer.push(0);
    assert_eq!(recount(&longer), "refused 12\n");
    // An empty sheet, a damaged one, a wrong S, a wrong N.
    assert_eq!(recount(&[0, 0, 2, 1, 0]), "refused 2\n");
    assert_eq!(recount(&[0, 0, 2, 1]), "refused 12\n");
    assert_eq!(recount(&[1, 0, 20, 2, 1, 0]), "refused 1\n");
    assert_eq!(recount(&[1, 0, 20, 2, 1]), "refused 12\n");
    assert_eq!(recount(&[1, 0, 20, 9, 1, 0]), "refused 2\n");
    assert_eq!(recount(&[1, 0, 17, 2, 0, 0]), "refused 2\n");
    assert_eq!(recount(&[1, 0, 17, 2, 1, 4]), "refused 2\n");
    assert_eq!(recount(&[2, 0, 19, 24, 2, 129, 0]), "refused 4\n");
    assert_eq!(recount(&[2, 0, 19, 24, 2, 128, 0]), "refused 12\n");
    // A sheet of the greatest length, with its fault at the end.
    let mut long = vec![0xFF, 0xFF];
    long.extend(vec![17; 65_534]);
    long.extend([99, 2, 1, 0]);
    assert_eq!(recount(&long), "refused 1\n");
    long[65_536] = 17;
    assert_eq!(recount(&long), "refused 2\n");
    assert_eq!(recount(&long[..long.len() - 1]), "refused 12\n");
}

/// A column with a top is published as one total, option 0.
#[test]
fn recount_of_a_top() {
    let mut input = vec![8, 0, 18, 2, 20, 200, 0, 0, 0, 17, 2, 0, 4];
    input.extend(closing(0, 2, &[P32 - 1, 1, 7, 0]));
    input.extend(closing(1, 2, &[2, 0, 318, 1]));
    let text = "accepted 2\n1 0 1\n1 1 1\n2 0 325\n3 0 1\n";
    assert_eq!(recount(&input), text);
    // One total fewer, a top out of range, too many returns.
    assert_eq!(recount(&input[..input.len() - 4]), "refused 12\n");
    input[8] = 1;
    assert_eq!(recount(&input), "refused 2\n");
    let most = [5, 0, 20, 255, 255, 255, 0, 2];
    assert_eq!(recount(&[&most[..], &[129, 0]].concat()), "refused 4\n");
    assert_eq!(recount(&[&most[..], &[128, 0]].concat()), "refused 12\n");
    assert_eq!(recount(&[4, 0, 20, 1, 0, 0, 2, 1, 0]), "refused 1\n");
}

/// A column of points is published as four totals, options 0 to 3.
#[test]
fn recount_of_points() {
    let mut input = vec![4, 0, 17, 21, 3, 17, 2, 3, 0];
    input.extend(closing(0, 3, &[P32 - 1, 5, 1, P32 - 9, 30, 0]));
    input.extend(closing(1, 3, &[3, 1, 13, 18, P32 - 7, 1]));
    let text = "accepted 3\n1 0 2\n2 0 6\n2 1 14\n2 2 9\n2 3 23\n3 0 1\n";
    assert_eq!(recount(&input), text);
    // One total fewer, bits out of range, too many returns.
    assert_eq!(recount(&input[..input.len() - 4]), "refused 12\n");
    input[4] = 13;
    assert_eq!(recount(&input), "refused 2\n");
    assert_eq!(recount(&[2, 0, 21, 12, 2, 129, 0]), "refused 4\n");
    assert_eq!(recount(&[2, 0, 21, 12, 2, 128, 0]), "refused 12\n");
    assert_eq!(recount(&[1, 0, 21, 2, 1, 0]), "refused 1\n");
}

#[test]
fn a_pool_by_hand() {
    // Sheet 17, 18 3, 19 4: yes, option 2, number 9; then no, option 0, number 15.
    let sheet = [17, 18, 3, 19, 4];
    let shape = Sheet::read(&sheet).unwrap();
    let mut tables = open_all(3, &sheet, 5);
    for (id, values) in [[1, 2, 9], [0, 0, 15]].iter().enumerate() {
        let count = 2 * shape.share_elements() as u32 + 4;
        let random: Vec<u32> = (0..count).map(|i| i * 7_000_003 % P as u32).collect();
        let messages = make(
            &sheet,
            3,
            id as u32,
            &words(values),
            &words(&random),
            usize::MAX,
        )
        .unwrap();
        let shares: Vec<Vec<u8>> = messages
            .chunks(shape.share_length())
            .map(<[u8]>::to_vec)
            .collect();
        let verdict = take(&mut tables, &shares, 1000, 77);
        assert_eq!(verdict, Verdict::Accepted);
    }
    let closings: Vec<u8> = tables
        .iter_mut()
        .flat_map(|table| close(table, shape.closing_length()).unwrap())
        .collect();
    assert_eq!(
        join(3, &sheet, 5, &closings, 20),
        Ok(Joined {
            count: 2,
            totals: words(&[1, 1, 0, 1, 24]),
        })
    );
}
