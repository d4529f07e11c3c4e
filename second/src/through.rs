//! Another program that reads a trace: what it writes of one, in a file and
//! on standard input.

use std::fs;
use std::io::Write;
use std::path::Path;
use std::process::{Command, Stdio};

/// What the program writes of a trace in a file.
pub fn named(program: &[String], file: &Path, trace: &[u8]) -> String {
    fs::write(file, trace).expect("a trace can be put in a file");
    let ended = Command::new(&program[0])
        .args(&program[1..])
        .arg(file)
        .output()
        .expect("the program can be started");
    String::from_utf8_lossy(&ended.stdout).into_owned()
}

/// What the program writes of a trace on standard input, in pieces.
pub fn piped(program: &[String], trace: &[u8], turn: usize) -> String {
    let mut child = Command::new(&program[0])
        .args(&program[1..])
        .stdin(Stdio::piped())
        .stdout(Stdio::piped())
        .spawn()
        .expect("the program can be started");
    let mut input = child.stdin.take().expect("it has an input");
    for piece in trace.chunks(1 + turn % 97) {
        input.write_all(piece).expect("the program reads it all");
    }
    drop(input);
    let ended = child.wait_with_output().expect("the program ends");
    String::from_utf8_lossy(&ended.stdout).into_owned()
}
