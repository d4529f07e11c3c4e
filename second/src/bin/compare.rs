//! Compares two answer files to the byte: `compare A B REQUESTS`.
//!
//! Leaves with 0 when all answers are the same, with 1 at the first
//! difference, with 2 when a file cannot be had.

use second::line::{passed_over, UNREADABLE};
use second::tick::MOMENT;
use second::Refusal;
use std::process::ExitCode;
use std::{env, fs};

/// How many answers carry each number, are unreadable, or are neither.
#[derive(Default)]
struct Tally {
    numbers: [u64; 12],
    unreadable: u64,
    other: u64,
}

impl Tally {
    fn add(&mut self, answer: &[u8]) {
        let answer = answer.strip_suffix(b"\n").unwrap_or(answer);
        match answer {
            [digit @ b'0'..=b'8', b' ', ..] => self.numbers[usize::from(digit - b'0')] += 1,
            [b'1', digit @ (b'0' | b'1'), b' ', ..] => {
                self.numbers[usize::from(10 + digit - b'0')] += 1
            }
            _ if answer == UNREADABLE.as_bytes() => self.unreadable += 1,
            _ => self.other += 1,
        }
    }

    fn print(&self) {
        let all = self.numbers.iter().sum::<u64>() + self.unreadable + self.other;
        println!("compared {all} answers");
        println!("number 0: {}", self.numbers[0]);
        for number in Refusal::ALL
            .map(Refusal::number)
            .into_iter()
            .chain([MOMENT])
        {
            println!("number {number}: {}", self.numbers[number as usize]);
        }
        println!("unreadable: {}", self.unreadable);
        if self.other > 0 {
            println!("other: {}", self.other);
        }
    }
}

fn main() -> ExitCode {
    let names: Vec<String> = env::args().skip(1).collect();
    let [left, right, requests] = names.as_slice() else {
        eprintln!("usage: compare A B REQUESTS");
        return ExitCode::from(2);
    };
    let mut files = Vec::new();
    for name in [left, right, requests] {
        match fs::read(name) {
            Ok(bytes) => files.push(bytes),
            Err(wrong) => {
                eprintln!("{name}: {wrong}");
                return ExitCode::from(2);
            }
        }
    }
    compare(&files[0], &files[1], &files[2])
}

/// Goes through both files answer by answer, beside the requests. A newline
/// belongs to its answer, so that a missing one is a difference too.
fn compare(left: &[u8], right: &[u8], requests: &[u8]) -> ExitCode {
    let mut lefts = left.split_inclusive(|&byte| byte == b'\n');
    let mut rights = right.split_inclusive(|&byte| byte == b'\n');
    let mut asked = requests
        .split(|&byte| byte == b'\n')
        .enumerate()
        .filter(|(_, line)| !passed_over(line));
    let mut tally = Tally::default();
    loop {
        match (asked.next(), lefts.next(), rights.next()) {
            (None, None, None) => break,
            (Some(_), Some(a), Some(b)) if a == b => tally.add(a),
            (request, a, b) => {
                match request {
                    Some((at, line)) => {
                        println!("request line {}: {}", at + 1, line.escape_ascii())
                    }
                    None => println!("no request left"),
                }
                println!("first answer: {}", show(a));
                println!("second answer: {}", show(b));
                return ExitCode::from(1);
            }
        }
    }
    tally.print();
    ExitCode::SUCCESS
}

/// An answer as it is, odd bytes escaped, its own newline left out.
fn show(answer: Option<&[u8]>) -> String {
    match answer {
        None => "(none)".to_string(),
        Some([text @ .., b'\n']) => text.escape_ascii().to_string(),
        Some(text) => format!("{} (no newline)", text.escape_ascii()),
    }
}
