//! Another replay program beside this one: `replays SEED COUNT PROGRAM [WORD..]`.
//!
//! Runs the program once for each of COUNT random traces, with the trace in a
//! file that is named as its last argument and, every other time, on standard
//! input in pieces. It must write the five lines and no more. Leaves with 1
//! at the first difference.

use second::beside_replay::replays_agree;
use second::replay::{lines, Five};
use second::through::{named, piped};
use std::process::ExitCode;
use std::{env, fs, process};

fn main() -> ExitCode {
    let words: Vec<String> = env::args().skip(1).collect();
    let [seed, count, program @ ..] = words.as_slice() else {
        return usage();
    };
    let (Ok(seed), Ok(count), false) = (seed.parse(), count.parse(), program.is_empty()) else {
        return usage();
    };
    println!("comparing {count} traces, seed {seed}, through the program");
    let file = env::temp_dir().join(format!("replays-{}", process::id()));
    let mut turn = 0;
    let agree = replays_agree(seed, count, |trace| {
        turn += 1;
        let wrote = match turn % 2 {
            0 => named(program, &file, trace),
            _ => piped(program, trace, turn),
        };
        five(&wrote)
    });
    // The last trace is of no use any more.
    let _ = fs::remove_file(file);
    match agree {
        true => ExitCode::SUCCESS,
        false => ExitCode::from(1),
    }
}

fn usage() -> ExitCode {
    eprintln!("usage: replays SEED COUNT PROGRAM [WORD..]");
    ExitCode::from(2)
}

/// The numbers in the five lines, or numbers that no trace has where the text
/// is anything else.
fn five(text: &str) -> Five {
    let numbers: Vec<u64> = text
        .split_whitespace()
        .filter_map(|word| word.parse().ok())
        .collect();
    if let [calls, same, differ, first, rest] = numbers[..] {
        let five = (calls, same, differ, first, rest);
        if lines(five) == text {
            return five;
        }
    }
    println!("not five lines: {}", text.escape_default());
    (u64::MAX, 0, 0, 0, 0)
}
