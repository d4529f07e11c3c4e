//! `olds SEED COUNT`: seeded old traces, cut into parts at random places, through the proved converter and through the second program's:
//! the trace that is made, how many requests were changed, and the five numbers, of the old trace by the second program's old
//! replay and of the made one by the proved replay of today. Then a trace whose parts are longer than what is taken at once.
//! Leaves with 1 on the first difference.

use native::Old;
use second::convert::{convert, Converted};
use second::edition::LONG;
use second::sample::traces::Recorder;
use second::xorshift::Xorshift;
use std::process::ExitCode;

/// What stands in the buffer before a call, and behind what was put out after it.
const MARK: u8 = 0xa5;
const GUARD: usize = 32;

fn main() -> ExitCode {
    let mut words = std::env::args().skip(1).map(|word| word.parse::<u64>());
    let (Some(Ok(seed)), Some(Ok(count)), None) = (words.next(), words.next(), words.next()) else {
        eprintln!("usage: olds SEED COUNT");
        return ExitCode::from(2);
    };
    println!("comparing {count} old traces in parts, seed {seed}, through the library");
    let mut rng = Xorshift::new(seed ^ 0x6f6c6473);
    let mut out = vec![MARK; Old::ROOM + GUARD];
    let mut parts = 0u64;
    let (mut converted, mut changed) = (0u64, 0u64);
    let agreed = second::agree::converts(seed, count, |trace| {
        let most = rng.pick(&[1, 7, 100, 1000]);
        let made = in_parts(trace, &mut out, || {
            parts += 1;
            rng.below(most + 1)
        })?;
        converted += 1;
        changed += made.changed;
        let five = native::replay(&made.bytes);
        Some((made, five))
    });
    if !second::agree::shown("old traces", agreed) {
        return ExitCode::from(1);
    }
    println!("{parts:>9}  parts\n{converted:>9}  traces converted, which replay as before\n{changed:>9}  requests changed");

    let mut recorder = Recorder::of(&LONG, seed);
    let mut long = recorder.tape(20000, 8);
    recorder.tear(&mut long);
    for most in [Old::PART - 1, Old::PART, Old::PART + 1, 4 * Old::PART] {
        if in_parts(&long.bytes, &mut out, || most) != convert(&long.bytes) {
            println!("a trace of {} bytes in parts of {most} differs", long.bytes.len());
            return ExitCode::from(1);
        }
    }
    println!("and one of {} bytes in parts about and beyond what is taken at once", long.bytes.len());
    ExitCode::SUCCESS
}

/// What the proved converter makes of a trace in parts of these sizes. Where there is less room than it asks for nothing is taken and
/// nothing is written; otherwise all that it may take, and what stands behind what it puts out stays.
fn in_parts(old: &[u8], out: &mut [u8], mut size: impl FnMut() -> usize) -> Option<Converted> {
    let mut converter = Old::default();
    let mut bytes = Vec::new();
    let mut keep = |out: &mut [u8], put: usize| {
        bytes.extend(&out[..put]);
        out[..put].fill(MARK);
        assert!(out[..put + GUARD].iter().all(|&byte| byte == MARK), "what stands behind was written");
    };
    let mut at = 0;
    loop {
        let part = &old[at..(at + size()).min(old.len())];
        let cramped = converter.clone().take(part, &mut out[..Old::ROOM - 1]);
        assert_eq!(cramped, (0, 0), "taken without room");
        let (taken, put) = converter.take(part, out);
        assert_eq!(taken, part.len().min(Old::PART), "not all is taken");
        keep(out, put);
        at += taken;
        if at == old.len() {
            break;
        }
    }
    assert_eq!(converter.end(&mut out[..Old::LAST - 1]), 0, "put out without room");
    let put = converter.end(out);
    keep(out, put);
    let changed = converter.changed()?;
    Some(Converted { bytes, changed })
}
