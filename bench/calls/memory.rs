// Bytes of what a host keeps and sends.
use crate::setting::{Setting, ONE_BYTES, TWO_BYTES};

pub fn run(settings: &[Setting]) {
    println!("bytes of a table for N returns, of its records and numbers, of a share, both rounds', a totals message");
    println!(
        "{:<14} {:>4} {:>9} {:>9} {:>9} {:>8} {:>8} {:>7} {:>5} {:>5} {:>7}",
        "sheet", "M", "N = 1", "N = 64", "N = 1024", "records", "numbers", "share", "one", "two", "totals"
    );
    for x in settings.iter().filter(|x| x.servers == 2) {
        let [one, some, most] = [1, 64, 1024].map(|n| x.table_bytes(n));
        println!(
            "{:<14} {:>4} {one:>9} {some:>9} {most:>9} {:>8} {:>8} {:>7} {:>5} {:>5} {:>7}",
            x.name,
            x.gates,
            8 * 40,
            4 * x.numbers(),
            x.share_bytes(),
            ONE_BYTES,
            TWO_BYTES,
            x.totals_bytes()
        );
    }
    println!();
    println!("bytes that a workshop sends of one return");
    println!("{:<14} {:>4} {:>3} {:>9} {:>9}", "sheet", "M", "S", "long", "seeds");
    for x in settings {
        let (long, seeds) = (x.servers as usize * x.share_bytes(), x.seeded_bytes());
        println!("{:<14} {:>4} {:>3} {long:>9} {seeds:>9}", x.name, x.gates, x.servers);
    }
}
