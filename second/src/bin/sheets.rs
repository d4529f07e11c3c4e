//! Another sheet program beside this one: `sheets SEED COUNT PROGRAM [WORD..]`.
//!
//! Runs the program once for each of COUNT random traces, with the trace in a
//! file that is named as its last argument and, every other time, on standard
//! input in pieces. It must write the fourteen lines and no more. Leaves with
//! 1 at the first difference.

use second::agree::{compared, shown};
use second::edition::TODAY;
use second::sample::torn::Torn;
use second::sheet::sheet;
use second::through::{named, piped};
use std::process::ExitCode;
use std::{env, fs, process};

fn main() -> ExitCode {
    let words: Vec<String> = env::args().skip(1).collect();
    let [seed, count, program @ ..] = words.as_slice() else {
        return usage();
    };
    let (Ok(seed), Ok(count), false) = (seed.parse(), count.parse(), program.is_empty()) else {
        return usage();
    };
    println!("comparing {count} sheets, seed {seed}, through the program");
    let file = env::temp_dir().join(format!("sheets-{}", process::id()));
    let mut draws = Torn::new(seed);
    let mut turn = 0;
    let compared = compared(
        count,
        || draws.parts(),
        |parts| sheet(TODAY.longest, &parts.concat()).lines(),
        |parts| {
            turn += 1;
            match turn % 2 {
                0 => named(program, &file, &parts.concat()),
                _ => piped(program, &parts.concat(), turn),
            }
        },
    );
    // The last trace is of no use any more.
    let _ = fs::remove_file(file);
    match shown("sheets", compared) {
        true => ExitCode::SUCCESS,
        false => ExitCode::from(1),
    }
}

fn usage() -> ExitCode {
    eprintln!("usage: sheets SEED COUNT PROGRAM [WORD..]");
    ExitCode::from(2)
}
