//! Another salvage program beside this one: `salvages SEED COUNT PROGRAM [WORD..]`.
//!
//! Runs the program once for each of COUNT random torn traces, with the trace
//! in a file or, every other time, on standard input in pieces, and with the
//! name of a file to write. Leaves with 1 at the first difference.

use second::beside_salvage::{salvages_agree, Left};
use std::io::Write;
use std::path::Path;
use std::process::{Command, ExitCode, Stdio};
use std::{env, fs, process};

fn main() -> ExitCode {
    let words: Vec<String> = env::args().skip(1).collect();
    let [seed, count, program @ ..] = words.as_slice() else {
        return usage();
    };
    let (Ok(seed), Ok(count), false) = (seed.parse(), count.parse(), program.is_empty()) else {
        return usage();
    };
    println!("comparing {count} torn traces, seed {seed}, through the program");
    let folder = env::temp_dir().join(format!("salvages-{}", process::id()));
    fs::create_dir(&folder).expect("a folder can be made");
    let mut turn = 0;
    let agree = salvages_agree(seed, count, |trace| {
        turn += 1;
        through(program, &folder, trace, turn)
    });
    // The last trace is of no use any more.
    let _ = fs::remove_dir_all(folder);
    match agree {
        true => ExitCode::SUCCESS,
        false => ExitCode::from(1),
    }
}

fn usage() -> ExitCode {
    eprintln!("usage: salvages SEED COUNT PROGRAM [WORD..]");
    ExitCode::from(2)
}

/// What the program leaves of a trace; what stood in the file before is
/// another trace's.
fn through(program: &[String], folder: &Path, trace: &[u8], turn: usize) -> Left {
    let (from, to) = (folder.join("torn"), folder.join("kept"));
    let mut command = Command::new(&program[0]);
    command.args(&program[1..]).stdout(Stdio::piped());
    let lines = if turn % 2 == 0 {
        fs::write(&from, trace).expect("a trace can be put in a file");
        let ended = command.arg(&from).arg(&to).output();
        ended.expect("the program can be started").stdout
    } else {
        let mut child = command
            .args(["-".as_ref(), to.as_os_str()])
            .stdin(Stdio::piped())
            .spawn()
            .expect("the program can be started");
        let mut input = child.stdin.take().expect("it has an input");
        for piece in trace.chunks(1 + turn % 97) {
            input.write_all(piece).expect("the program reads it all");
        }
        drop(input);
        child.wait_with_output().expect("the program ends").stdout
    };
    let kept = fs::read(&to).unwrap_or_else(|_| b"there is no file".to_vec());
    (kept, String::from_utf8_lossy(&lines).into_owned())
}
