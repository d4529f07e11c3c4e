//! `patches SEED COUNT`: seeded patches through the proved composer of patches and through the second program's, the answer and every
//! place of both arrays compared. Leaves with 1 on the first difference.

use std::process::ExitCode;

fn main() -> ExitCode {
    let mut words = std::env::args().skip(1).map(|word| word.parse::<u64>());
    let (Some(Ok(seed)), Some(Ok(count)), None) = (words.next(), words.next(), words.next()) else {
        eprintln!("usage: patches SEED COUNT");
        return ExitCode::from(2);
    };
    println!("comparing {count} patches, seed {seed}");
    if second::agree::shown("patches", second::agree::patches(seed, count, native::patch)) {
        ExitCode::SUCCESS
    } else {
        ExitCode::from(1)
    }
}
