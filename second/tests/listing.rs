//! Every legal return of a small sheet.

mod common;

use common::*;
use second::gen::{self, Rng};
use second::values::encode;
use second::{every_return, Circuit, Listing, Sheet};

/// The lists of a sheet, as numbers.
fn lists(sheet: &[u8]) -> Vec<Vec<u32>> {
    let columns = Sheet::read(sheet).unwrap().columns().len();
    let Listing { lists, values } = every_return(sheet, ROOM).unwrap();
    assert_eq!(values.len(), 4 * columns * lists as usize);
    let (numbers, _) = values.as_chunks::<4>();
    let numbers: Vec<u32> = numbers.iter().map(|&n| u32::from_le_bytes(n)).collect();
    numbers.chunks(columns).map(<[u32]>::to_vec).collect()
}

#[test]
fn by_hand() {
    assert_eq!(lists(&[17]), [[0], [1]]);
    assert_eq!(lists(&[18, 3]), [[0], [1], [2]]);
    assert_eq!(lists(&[19, 2]), [[0], [1], [2], [3]]);
    assert_eq!(lists(&[20, 1, 0, 0, 0]), [[0], [1]]);
    assert_eq!(lists(&[20, 4, 0, 0, 0]), [[0], [1], [2], [3], [4]]);
    let top = [[0, 0], [0, 1], [0, 2], [1, 0], [1, 1], [1, 2]];
    assert_eq!(lists(&[17, 20, 2, 0, 0, 0]), top);
    assert_eq!(lists(&[21, 1]), [[0], [1], [2], [3]]);
    let sixteen: Vec<Vec<u32>> = (0..16).map(|value| vec![value]).collect();
    assert_eq!(lists(&[21, 2]), sixteen);
    let mixed = [[0, 0], [0, 1], [0, 2], [1, 0], [1, 1], [1, 2]];
    assert_eq!(lists(&[17, 18, 3]), mixed);
    let turned = [[0, 0], [0, 1], [1, 0], [1, 1], [2, 0], [2, 1]];
    assert_eq!(lists(&[18, 3, 17]), turned);
    let listing = Listing {
        lists: 2,
        values: vec![0, 0, 0, 0, 1, 0, 0, 0],
    };
    assert_eq!(every_return(&[17], 8), Ok(listing));
}

/// Rising, each legal, and as many as the values of the columns multiply to.
#[test]
fn rising_and_legal() {
    let mut rng = Rng::new(61);
    for _ in 0..300 {
        let bytes = gen::small_sheet(&mut rng);
        let sheet = Sheet::read(&bytes).unwrap();
        let product = sheet.columns().iter().try_fold(1u32, |product, column| {
            Some(product.checked_mul(column.values())?).filter(|&lists| lists <= 4096)
        });
        let Some(product) = product else {
            assert_eq!(every_return(&bytes, ROOM), Err(17));
            continue;
        };
        let lists = lists(&bytes);
        assert_eq!(lists.len(), product as usize);
        assert!(lists.windows(2).all(|pair| pair[0] < pair[1]));
        let circuit = Circuit::of(&sheet);
        for list in &lists {
            let entries = encode(&sheet, &words(list)).unwrap();
            assert_eq!(circuit.is_valid(&entries), Some(true));
        }
    }
}

/// A list is written exactly when making takes its values.
#[test]
fn all_and_no_other() {
    let sheets: [&[u8]; 9] = [
        &[17, 17],
        &[18, 4, 17],
        &[19, 2, 18, 3],
        &[19, 3],
        &[17, 19, 1, 18, 2],
        &[20, 6, 0, 0, 0],
        &[20, 1, 0, 0, 0, 17, 20, 2, 0, 0, 0],
        &[21, 1],
        &[17, 21, 1, 18, 2],
    ];
    for bytes in sheets {
        let sheet = Sheet::read(bytes).unwrap();
        let columns = sheet.columns().len() as u32;
        let lists = lists(bytes);
        // All lists of numbers below 10, in rising order.
        let all = (0..10u32.pow(columns)).map(|number| -> Vec<u32> {
            let digit = |place| number / 10u32.pow(columns - 1 - place) % 10;
            (0..columns).map(digit).collect()
        });
        let legal: Vec<_> = all
            .filter(|list| encode(&sheet, &words(list)).is_ok())
            .collect();
        assert_eq!(lists, legal);
    }
}

#[test]
fn limits() {
    let refused = |sheet: &[u8], room| every_return(sheet, room).err();
    for (sheet, lists) in [
        (vec![17; 12], 4096),
        (vec![19, 12], 4096),
        ([18, 64].repeat(2), 4096),
        ([18, 3].repeat(7), 2187),
        (vec![18, 39, 18, 35, 18, 3], 4095),
        (top_column(4095), 4096),
        ([top_column(584), vec![18, 7]].concat(), 4095),
        (top_column(1).repeat(12), 4096),
        (vec![21, 6], 4096),
        ([21, 1].repeat(6), 4096),
        (vec![21, 5, 18, 4], 4096),
    ] {
        assert_eq!(every_return(&sheet, ROOM).unwrap().lists, lists);
    }
    let many = [vec![18, 41, 18, 50, 17], [18, 3].repeat(8), vec![19, 13]];
    let more = [vec![19, 24], vec![21, 7], vec![21, 12], [21, 12].repeat(9)];
    let tops = [4096, 16_777_215].map(top_column);
    let wide = [
        [top_column(2047), vec![18, 3]].concat(),
        top_column(1).repeat(85),
    ];
    for sheet in many.iter().chain(&more).chain(&tops).chain(&wide) {
        assert_eq!(refused(sheet, ROOM), Some(17));
        assert_eq!(refused(sheet, 0), Some(17));
    }
    for columns in [13, 16, 31, 32, 33, 63, 64, 65, 128, 255, 256] {
        assert_eq!(refused(&vec![17; columns], 0), Some(17));
    }
    // The sheet's refusals come first, 14 last.
    assert_eq!(refused(&[17; 257], 0), Some(2));
    assert_eq!(refused(&[], 0), Some(2));
    assert_eq!(refused(&[vec![17; 20], vec![20]].concat(), 0), Some(1));
    assert_eq!(refused(&[17, 18, 3], 48), None);
    assert_eq!(refused(&[17, 18, 3], 47), Some(14));
    assert_eq!(refused(&[17, 18, 3], 0), Some(14));
}
