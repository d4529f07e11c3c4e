//! Answers request lines: standard input to standard output, one answer line
//! for each request line. What is wrong with an unreadable line goes to
//! standard error.

use second::line;
use std::io::{self, BufRead, BufWriter, Write};

fn main() -> io::Result<()> {
    let mut input = io::stdin().lock();
    let mut output = BufWriter::new(io::stdout().lock());
    let mut bytes = Vec::new();
    for row in 1_u64.. {
        bytes.clear();
        if input.read_until(b'\n', &mut bytes)? == 0 {
            break;
        }
        let text = bytes.strip_suffix(b"\n").unwrap_or(&bytes);
        if line::passed_over(text) {
            continue;
        }
        match line::answer(text) {
            Ok(answer) => writeln!(output, "{answer}")?,
            Err(wrong) => {
                eprintln!("-:{row}: {wrong}");
                writeln!(output, "{}", line::UNREADABLE)?;
            }
        }
    }
    output.flush()
}
