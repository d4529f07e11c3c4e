//! `records SEED COUNT`: seeded records through the proved door and through the second program's, compared over the whole reply
//! buffer and its guards. Leaves with 1 on the first difference.

use std::process::ExitCode;

fn main() -> ExitCode {
    let mut words = std::env::args().skip(1).map(|word| word.parse::<u64>());
    let (Some(Ok(seed)), Some(Ok(count)), None) = (words.next(), words.next(), words.next()) else {
        eprintln!("usage: records SEED COUNT");
        return ExitCode::from(2);
    };
    println!("comparing {count} records, seed {seed}");
    if second::beside::doors_agree(seed, count, native::door) {
        ExitCode::SUCCESS
    } else {
        ExitCode::from(1)
    }
}
