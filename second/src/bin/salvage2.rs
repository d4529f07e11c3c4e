//! The second program's salvage: `salvage2 IN OUT` writes the kept pairs to
//! OUT and prints the lines.

use second::edition::TODAY;
use second::salvage::salvage;
use std::{env, fs, process::ExitCode};

fn main() -> ExitCode {
    let words: Vec<String> = env::args().skip(1).collect();
    let [from, to] = words.as_slice() else {
        eprintln!("usage: salvage2 IN OUT");
        return ExitCode::from(2);
    };
    let torn = fs::read(from).expect("IN can be read");
    let salvaged = salvage(&TODAY, &torn);
    fs::write(to, &salvaged.kept).expect("OUT can be written");
    print!("{}", salvaged.lines());
    ExitCode::SUCCESS
}
