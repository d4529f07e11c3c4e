//! Another converter program beside this one: `converts SEED COUNT PROGRAM [WORD..]`.
//!
//! Runs the program once for each of COUNT random old traces, with the trace
//! in a file that is named as its last argument but one, and the file to make
//! as its last. The line that it prints and the file must be this program's,
//! and the file must replay as the trace did by the old rule; where the trace
//! cannot be converted no file is made. Leaves with 1 at the first difference.

use second::agree::{converts, shown};
use second::convert::{line, Converted};
use second::replay::{replay, Five};
use std::path::Path;
use std::process::{Command, ExitCode};
use std::{env, fs, process};

fn main() -> ExitCode {
    let words: Vec<String> = env::args().skip(1).collect();
    let [seed, count, program @ ..] = words.as_slice() else {
        return usage();
    };
    let (Ok(seed), Ok(count), false) = (seed.parse(), count.parse(), program.is_empty()) else {
        return usage();
    };
    println!("comparing {count} traces, seed {seed}, through the program");
    let name = |what: &str| env::temp_dir().join(format!("converts-{}-{what}", process::id()));
    let [from, to] = ["old", "new"].map(name);
    let compared = converts(seed, count, |trace| made(program, &from, &to, trace));
    // The last traces are of no use any more.
    let _ = fs::remove_file(from);
    let _ = fs::remove_file(to);
    match shown("traces", compared) {
        true => ExitCode::SUCCESS,
        false => ExitCode::from(1),
    }
}

fn usage() -> ExitCode {
    eprintln!("usage: converts SEED COUNT PROGRAM [WORD..]");
    ExitCode::from(2)
}

/// What the program makes of a trace. Where its line says anything else, that
/// is a number of requests that no trace has.
fn made(program: &[String], from: &Path, to: &Path, trace: &[u8]) -> Option<(Converted, Five)> {
    fs::write(from, trace).expect("a trace can be put in a file");
    let _ = fs::remove_file(to);
    let ended = Command::new(&program[0])
        .args(&program[1..])
        .args([from, to])
        .output()
        .expect("the program can be started");
    let text = String::from_utf8_lossy(&ended.stdout);
    let bytes = fs::read(to).ok();
    let number = text.trim_end().strip_prefix("converted ");
    let changed = number.and_then(|number| number.parse().ok());
    let converted = match (&bytes, changed) {
        (Some(bytes), Some(changed)) => Some(Converted {
            bytes: bytes.clone(),
            changed,
        }),
        _ => None,
    };
    if line(converted.as_ref()) != text || bytes.is_some() != converted.is_some() {
        println!("neither a trace and its line nor none: {}", text.escape_default());
        let none = Converted {
            bytes: Vec::new(),
            changed: u64::MAX,
        };
        return Some((none, (0, 0, 0, 0, 0)));
    }
    converted.map(|converted| {
        let five = replay(&converted.bytes);
        (converted, five)
    })
}
