//! `ticks SEED COUNT`: seeded nets and moments through the proved reading at a tick and through the second program's, compared.
//! Leaves with 1 on the first difference.

use std::process::ExitCode;

fn main() -> ExitCode {
    let mut words = std::env::args().skip(1).map(|word| word.parse::<u64>());
    let (Some(Ok(seed)), Some(Ok(count)), None) = (words.next(), words.next(), words.next()) else {
        eprintln!("usage: ticks SEED COUNT");
        return ExitCode::from(2);
    };
    println!("comparing {count} readings, seed {seed}");
    if second::agree::shown("readings", second::agree::ticks(seed, count, native::tick)) {
        ExitCode::SUCCESS
    } else {
        ExitCode::from(1)
    }
}
