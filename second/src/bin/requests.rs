//! Writes random request lines of every kind: `requests SEED COUNT`.
//!
//! COUNT request lines go to standard output, with a few lines among them
//! that are passed over; a table of the kinds goes to standard error. The
//! same seed gives the same lines.

use second::sample::lines::Lines;
use std::collections::BTreeMap;
use std::env;
use std::io::{self, BufWriter, Write};
use std::process::ExitCode;

fn main() -> ExitCode {
    let numbers: Vec<Option<u64>> = env::args().skip(1).map(|word| word.parse().ok()).collect();
    let [Some(seed), Some(count)] = numbers[..] else {
        eprintln!("usage: requests SEED COUNT");
        return ExitCode::from(2);
    };
    match write(seed, count) {
        Ok(()) => ExitCode::SUCCESS,
        Err(wrong) => {
            eprintln!("requests: {wrong}");
            ExitCode::FAILURE
        }
    }
}

fn write(seed: u64, count: u64) -> io::Result<()> {
    let mut output = BufWriter::new(io::stdout().lock());
    let mut lines = Lines::new(seed);
    let mut table: BTreeMap<String, u64> = BTreeMap::new();
    let mut asides = 0;
    for _ in 0..count {
        if let Some(aside) = lines.aside() {
            output.write_all(aside)?;
            output.write_all(b"\n")?;
            asides += 1;
        }
        let sample = lines.draw();
        output.write_all(&sample.line)?;
        output.write_all(b"\n")?;
        *table.entry(sample.kind).or_default() += 1;
    }
    output.flush()?;
    for (kind, times) in &table {
        eprintln!("{times:>9}  {kind}");
    }
    eprintln!("{count:>9}  request lines in all");
    eprintln!("{asides:>9}  lines passed over besides");
    Ok(())
}
