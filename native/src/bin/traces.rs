//! `traces SEED COUNT`: seeded traces through the proved replay and through the second program's, compared. Leaves with 1 on
//! the first difference.

use std::process::ExitCode;

fn main() -> ExitCode {
    let mut words = std::env::args().skip(1).map(|word| word.parse::<u64>());
    let (Some(Ok(seed)), Some(Ok(count)), None) = (words.next(), words.next(), words.next()) else {
        eprintln!("usage: traces SEED COUNT");
        return ExitCode::from(2);
    };
    println!("comparing {count} traces, seed {seed}, through the library");
    if second::beside_replay::replays_agree(seed, count, native::replay) {
        ExitCode::SUCCESS
    } else {
        ExitCode::from(1)
    }
}
