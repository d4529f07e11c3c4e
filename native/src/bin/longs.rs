//! `longs SEED COUNT`: seeded requests with N up to 6 through the proved composer and through the second program, compared over
//! the answer, its entries and the three arrays, which are marked beforehand. Leaves with 1 on the first difference.

use std::process::ExitCode;

fn main() -> ExitCode {
    let mut words = std::env::args().skip(1).map(|word| word.parse::<u64>());
    let (Some(Ok(seed)), Some(Ok(count)), None) = (words.next(), words.next(), words.next()) else {
        eprintln!("usage: longs SEED COUNT");
        return ExitCode::from(2);
    };
    println!("comparing {count} requests over three arrays, seed {seed}");
    let compared = second::agree::longs(seed, count, |request, high, low, points| {
        native::compose(
            request.form,
            request.first,
            request.second,
            request.n,
            request.age,
            request.surface,
            request.path,
            high,
            low,
            points,
        )
    });
    if second::agree::shown("requests", compared) {
        ExitCode::SUCCESS
    } else {
        ExitCode::from(1)
    }
}
