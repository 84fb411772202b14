//! The least count in the bytes of a lent table.

mod common;

use common::lent_model::{check, put, stages, Stages};
use second::gen::{Answer, Call, Server};

/// Q from 1 to N and no other, at every stage; N down to Q and no lower.
#[test]
fn least_at_its_limits() {
    for limit in [6, 258] {
        let Stages { tables, calls } = stages(&[17], limit.into());
        for table in &tables[..5] {
            for least in [1, 2, 5, 6, 255, 256, 257, 258, 259, 1024, 1025, 65_535] {
                assert_eq!(check(&put(table, 10, least), &calls), least <= limit);
            }
            assert!(!check(&put(table, 10, 0), &calls));
            let most = put(table, 10, 6);
            assert!(check(&put(&most, 4, 6), &calls));
            assert!(!check(&put(&most, 4, 5), &calls));
        }
    }
}

/// Closing compares both bytes of Q with both of the count of entered returns. No other call looks
/// at Q.
#[test]
fn least_and_entered() {
    let Stages { tables, calls } = stages(&[17], 1024);
    let idle = put(&tables[0], 6, 600);
    let close = Call::Close { room: 10 };
    let numbers = [1, 2, 3, 255, 256, 257, 258, 511, 512, 513, 600];
    for (entered, least) in numbers.iter().flat_map(|&n| numbers.map(|q| (n, q))) {
        let mut table = put(&put(&idle, 8, entered), 10, least);
        let done = matches!(table.call(&close), Answer::Message(_));
        assert_eq!(done, entered >= least, "{entered} of {least}");
        if !done {
            assert_eq!(table.call(&close), Answer::Refused(15));
        }
    }
    for (table, call) in tables
        .iter()
        .flat_map(|t| calls[..7].iter().map(move |c| (t, c)))
    {
        let (mut one, mut many) = (table.clone(), put(table, 10, 1024));
        assert_eq!(one.call(call), many.call(call));
        assert!(put(&one, 10, 1024) == many);
    }
}
