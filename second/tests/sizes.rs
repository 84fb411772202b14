//! Room told from the sheet.

mod common;

use common::*;
use second::gen::{self, Rng};
use second::{circuit, fast, open, read_circuit, sizes, Sheet, Sizes};

/// All nine numbers in the order of the paper.
fn row(sheet: &[u8]) -> [usize; 9] {
    let told = sizes(sheet).unwrap();
    let Sizes {
        columns,
        entries,
        published,
        wires,
        multiplications,
        tests,
        circuit_bytes,
        share_bytes,
        greatest_limit,
    } = told;
    [
        columns,
        entries,
        published,
        wires,
        multiplications,
        tests,
        circuit_bytes,
        share_bytes,
        greatest_limit as usize,
    ]
}

#[test]
fn by_hand() {
    assert_eq!(row(&[17]), [1, 1, 1, 4, 1, 1, 21, 42, 1024]);
    assert_eq!(row(&[18, 2]), [1, 2, 2, 9, 2, 3, 50, 54, 1024]);
    assert_eq!(row(&[18, 3]), [1, 3, 3, 13, 3, 4, 71, 66, 1024]);
    assert_eq!(row(&[19, 1]), [1, 2, 1, 8, 1, 2, 46, 46, 1024]);
    assert_eq!(row(&[19, 24]), [1, 25, 1, 123, 24, 25, 690, 322, 128]);
    let top = |top| row(&top_column(top));
    assert_eq!(top(1), [1, 3, 1, 15, 2, 4, 87, 58, 1024]);
    assert_eq!(top(2), [1, 5, 1, 25, 4, 6, 143, 82, 1024]);
    assert_eq!(top(3), top(2));
    assert_eq!(top(200), [1, 17, 1, 85, 16, 18, 479, 226, 1024]);
    assert_eq!(top(16_777_215), [1, 49, 1, 245, 48, 50, 1375, 610, 128]);
    assert_eq!(row(&[21, 1]), [1, 6, 4, 23, 4, 6, 133, 86, 1024]);
    assert_eq!(row(&[21, 2]), [1, 8, 4, 33, 6, 8, 189, 110, 1024]);
    assert_eq!(row(&[21, 11]), [1, 26, 4, 123, 24, 26, 693, 326, 512]);
    assert_eq!(row(&[21, 12]), [1, 28, 4, 133, 26, 28, 749, 350, 128]);
    let mixed = [17, 18, 3, 19, 4];
    assert_eq!(row(&mixed), [3, 9, 5, 38, 8, 10, 212, 130, 1024]);
    // The largest of each count.
    let yes_no = [256, 256, 256, 769, 256, 256, 4101, 3102, 1024];
    assert_eq!(row(&[17; 256]), yes_no);
    let choices = [128, 256, 256, 1025, 256, 384, 5765, 3102, 1024];
    assert_eq!(row(&[18, 2].repeat(128)), choices);
    let numbers = [[19, 24].repeat(10), vec![19, 5]].concat();
    let without_tops = [11, 256, 11, 1248, 245, 256, 7008, 3014, 128];
    assert_eq!(row(&numbers), without_tops);
    let most = [6, 256, 6, 1275, 250, 262, 7161, 3054, 255];
    assert_eq!(row(&largest_sheet()), most);
    let most = [86, 256, 86, 1194, 171, 341, 6991, 2422, 1024];
    assert_eq!(row(&longest_sheet()), most);
}

#[test]
fn refused_as_in_reading() {
    let mut rng = Rng::new(41);
    let mut met = [0; 3];
    for _ in 0..2000 {
        let sheet = gen::damaged_sheet(&mut rng);
        assert_eq!(sizes(&sheet).err(), Sheet::read(&sheet).err());
        met[sizes(&sheet).err().unwrap_or(0) as usize] += 1;
    }
    assert!(met[1] > 100 && met[2] > 100, "{met:?}");
    assert_eq!(sizes(&[]), Err(2));
    assert_eq!(sizes(&[20]), Err(1));
    assert_eq!(sizes(&[17; 257]), Err(2));
    assert_eq!(sizes(&[vec![17; 300], vec![99]].concat()), Err(1));
}

/// The numbers are those of the circuit, the shares and the openings.
#[test]
fn what_the_calls_give() {
    let mut rng = Rng::new(42);
    for _ in 0..60 {
        let sheet = gen::sheet(&mut rng, 256);
        let told = sizes(&sheet).unwrap();
        let bytes = circuit(&sheet, told.circuit_bytes).unwrap();
        assert_eq!(bytes.len(), told.circuit_bytes);
        assert_eq!(circuit(&sheet, told.circuit_bytes - 1), Err(14));
        let read = read_circuit(told.entries as u32, &bytes).unwrap();
        assert_eq!(read.wires(), told.wires);
        assert_eq!(read.multiplications(), told.multiplications);
        assert_eq!(read.tests(), told.tests);

        let values = vec![0; 4 * told.columns];
        let random = vec![0; told.share_bytes - 6 + 16];
        let made = fast::make(&sheet, 2, 1, &values, &random, ROOM).unwrap();
        assert_eq!(made.len(), 2 * told.share_bytes);
        let mut tables = open_all(2, &sheet, told.greatest_limit);
        let shares = split(&Sheet::read(&sheet).unwrap(), &made);
        take(&mut tables, &shares, 1000, 3);
        let closing = second::close(&mut tables[0], ROOM).unwrap();
        assert_eq!(closing.len(), 6 + 4 * told.published);
    }
}

/// Opening itself, asked for every N.
#[test]
fn the_greatest_n() {
    let mut rng = Rng::new(43);
    let mut sheets: Vec<Vec<u8>> = (1..=24).map(|bits| vec![19, bits]).collect();
    sheets.extend([vec![17], vec![18, 64], vec![19, 3, 19, 24, 17]]);
    sheets.extend([2_097_151, 2_097_152, 8_388_608].map(top_column));
    sheets.extend((1..=12).map(|bits| vec![17, 21, bits]));
    sheets.extend((0..12).map(|_| gen::sheet(&mut rng, 40)));
    for sheet in &sheets {
        let opening = |limit: &u32| open(2, 1, sheet, *limit, 1).is_ok();
        let opened: Vec<u32> = (1..=1025).filter(opening).collect();
        let greatest = sizes(sheet).unwrap().greatest_limit;
        assert_eq!(opened, (1..=greatest).collect::<Vec<u32>>());
        let read = Sheet::read(sheet).unwrap();
        assert_eq!(greatest, gen::largest_limit(&read));
    }
    for (top, most) in [(16_777_215, 128), (8_388_608, 255), (200, 1024)] {
        assert_eq!(sizes(&top_column(top)).unwrap().greatest_limit, most);
    }
    for (bits, most) in [(24, 128), (23, 256), (22, 512), (21, 1024)] {
        assert_eq!(sizes(&[19, bits]).unwrap().greatest_limit, most);
    }
    for (bits, most) in [(12, 128), (11, 512), (10, 1024), (1, 1024)] {
        assert_eq!(sizes(&[21, bits]).unwrap().greatest_limit, most);
    }
}
