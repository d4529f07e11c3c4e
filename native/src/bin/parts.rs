//! `parts SEED COUNT`: seeded parts of a curve through the proved card and through the second program, which works in whole
//! numbers, compared by bits. Leaves with 1 on the first difference.

use second::agree::{cards, shown};
use std::process::ExitCode;

fn main() -> ExitCode {
    let mut words = std::env::args().skip(1).map(|word| word.parse::<u64>());
    let (Some(Ok(seed)), Some(Ok(count)), None) = (words.next(), words.next(), words.next()) else {
        eprintln!("usage: parts SEED COUNT");
        return ExitCode::from(2);
    };
    println!("comparing {count} parts, seed {seed}, by bits");
    if shown("parts", cards(seed, count, native::card)) {
        ExitCode::SUCCESS
    } else {
        ExitCode::from(1)
    }
}
