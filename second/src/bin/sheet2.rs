//! The daily sheet of a recorded trace: `sheet2 FILE`.
//!
//! Writes fourteen lines to standard output. Leaves with 2 when the file
//! cannot be had.

use second::edition::TODAY;
use second::sheet::sheet;
use std::path::Path;
use std::process::ExitCode;
use std::{env, fs};

fn main() -> ExitCode {
    let names: Vec<_> = env::args_os().skip(1).collect();
    let [name] = names.as_slice() else {
        eprintln!("usage: sheet2 FILE");
        return ExitCode::from(2);
    };
    match fs::read(name) {
        Ok(trace) => {
            print!("{}", sheet(TODAY.longest, &trace).lines());
            ExitCode::SUCCESS
        }
        Err(wrong) => {
            eprintln!("{}: {wrong}", Path::new(name).display());
            ExitCode::from(2)
        }
    }
}
