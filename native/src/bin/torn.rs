//! `torn SEED COUNT`: seeded torn traces through the proved salvage, in parts, and through the second program's, compared. Leaves
//! with 1 on the first difference.

use second::xorshift::Xorshift;
use std::process::ExitCode;

fn main() -> ExitCode {
    let mut words = std::env::args().skip(1).map(|word| word.parse::<u64>());
    let (Some(Ok(seed)), Some(Ok(count)), None) = (words.next(), words.next(), words.next()) else {
        eprintln!("usage: torn SEED COUNT");
        return ExitCode::from(2);
    };
    println!("comparing {count} torn traces, seed {seed}, through the library");
    let mut rng = Xorshift::new(seed ^ 0x7061727473);
    let agree = second::beside_salvage::salvages_agree(seed, count, |trace| {
        let most = rng.pick(&[1, 7, 100, 1000]);
        native::salvage(trace, || rng.below(most + 1))
    });
    if agree {
        ExitCode::SUCCESS
    } else {
        ExitCode::from(1)
    }
}
