//! Replays a recorded trace: `replay2 FILE`.
//!
//! Writes five lines to standard output. Leaves with 2 when the file cannot
//! be had.

use second::replay::{lines, replay};
use std::path::Path;
use std::process::ExitCode;
use std::{env, fs};

fn main() -> ExitCode {
    let names: Vec<_> = env::args_os().skip(1).collect();
    let [name] = names.as_slice() else {
        eprintln!("usage: replay2 FILE");
        return ExitCode::from(2);
    };
    match fs::read(name) {
        Ok(trace) => {
            print!("{}", lines(replay(&trace)));
            ExitCode::SUCCESS
        }
        Err(wrong) => {
            eprintln!("{}: {wrong}", Path::new(name).display());
            ExitCode::from(2)
        }
    }
}
