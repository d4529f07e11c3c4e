//! Records random exchanges as a trace: `record SEED COUNT OUT [torn [former]]`.
//!
//! COUNT pairs of request and reply go to the file OUT, some of the replies
//! wrong on purpose; with `torn` there is a torn tail besides, and with `former`
//! it is a trace of before ticket 10 (rule Old traces). The five lines that a replay must
//! write go to standard output: they are known from the recording, without a replay.

use second::edition::{LONG, TODAY};
use second::replay::lines;
use second::sample::traces::Recorder;
use std::process::ExitCode;
use std::{env, fs};

fn main() -> ExitCode {
    let words: Vec<String> = env::args().skip(1).collect();
    let words: Vec<&str> = words.iter().map(String::as_str).collect();
    let (seed, count, out, torn, edition) = match words[..] {
        [seed, count, out] => (seed.parse(), count.parse(), out, false, &TODAY),
        [seed, count, out, "torn"] => (seed.parse(), count.parse(), out, true, &TODAY),
        [seed, count, out, "torn", "former"] => (seed.parse(), count.parse(), out, true, &LONG),
        _ => return usage(),
    };
    let (Ok(seed), Ok(count)) = (seed, count) else {
        return usage();
    };
    let mut recorder = Recorder::of(edition, seed);
    let mut tape = recorder.tape(count, 8);
    if torn {
        recorder.tear(&mut tape);
    }
    if let Err(wrong) = fs::write(out, &tape.bytes) {
        eprintln!("{out}: {wrong}");
        return ExitCode::from(2);
    }
    print!("{}", lines(tape.five()));
    ExitCode::SUCCESS
}

fn usage() -> ExitCode {
    eprintln!("usage: record SEED COUNT OUT [torn [former]]");
    ExitCode::from(2)
}
