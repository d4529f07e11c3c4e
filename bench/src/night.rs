//! A night: calls and megabytes per second of the proved replay and the proved sheet, beside the second program's on the same bytes,
//! and the memory that a program takes for a short trace and for a long one.

use crate::rides::Ride;
use crate::{clock, Spread};
use second::door::{door, ROOM};
use second::edition::TODAY;
use second::replay::replay;
use second::sample::traces::Recorder;
use second::sheet::{sheet, Sheet};
use std::fs::{self, File};
use std::hint::black_box;
use std::io::{BufWriter, Read, Write};
use std::process::{Child, Command, Stdio};
use std::{array, env, process};

const ROUNDS: usize = 7;

/// What reads a trace, and tells how many calls it has.
type Reads = fn(&[u8]) -> u64;

const PROGRAMS: [(&str, Reads); 4] = [
    ("replay", |trace| native::replay(trace).0),
    ("sheet", |trace| replies(&native_sheet(trace))),
    ("second's replay", |trace| replay(trace).0),
    ("second's sheet", |trace| replies(&sheet(TODAY.longest, trace))),
];

fn native_sheet(trace: &[u8]) -> Sheet {
    let mut day = native::Day::default();
    day.take(trace);
    day.sheet()
}

fn replies(sheet: &Sheet) -> u64 {
    sheet.odd + sheet.refusals.iter().sum::<u64>()
}

/// The traces: accepted rides, each with an age, and their replies; and the recorder's mixture, most of it refused.
fn traces(rides: &[Ride]) -> [(&'static str, Vec<u8>); 2] {
    let accepted = rides.iter().flat_map(exchange).collect();
    let mixture = Recorder::new(4).tape(rides.len(), 50).bytes;
    [
        ("accepted rides", accepted),
        ("the recorder's mixture", mixture),
    ]
}

pub fn exchange(ride: &Ride) -> Vec<u8> {
    let numbers = ride.surface.iter().chain(&ride.path);
    let mut bytes = vec![0, 0, 2, 0];
    bytes.extend([ride.form, ride.first, ride.second, ride.n].map(|number| number as u8));
    bytes.extend(120_u16.to_le_bytes());
    bytes.extend(numbers.flat_map(|&number| (number as i16).to_le_bytes()));
    bytes[0] = bytes.len() as u8;
    let mut reply = [0; ROOM];
    let count = door(&bytes, &mut reply);
    bytes.extend(&reply[..count]);
    bytes
}

/// One run: the median time of each program on each trace, in nanoseconds a call.
pub fn once(rides: &[Ride]) -> [f64; 2 * PROGRAMS.len()] {
    let traces = traces(rides);
    array::from_fn(|at| {
        let (_, read) = PROGRAMS[at % PROGRAMS.len()];
        let trace = &traces[at / PROGRAMS.len()].1;
        let calls = read(trace);
        Spread::of((0..ROUNDS).map(|_| {
            let start = clock::used();
            for _ in 0..5 {
                black_box(read(black_box(trace)));
            }
            (clock::used() - start) / (5 * calls) as f64
        }))
        .median
    })
}

/// All runs.
pub fn report(rides: &[Ride], runs: &[Vec<f64>]) {
    println!(
        "{} runs, the median run, and from the least to the greatest; processor time:",
        runs.len()
    );
    for (of, (name, trace)) in traces(rides).iter().enumerate() {
        let five = replay(trace);
        assert_eq!(native::replay(trace), five, "{name}");
        assert_eq!(native_sheet(trace), sheet(TODAY.longest, trace), "{name}");
        let (calls, _, differ, ..) = five;
        let size = trace.len() as f64 / calls as f64;
        println!("\n{name}: {calls} calls, {differ} of them differ, {size:.1} bytes a call");
        for (at, (program, _)) in PROGRAMS.iter().enumerate() {
            let rate = Spread::of(runs.iter().map(|times| 1e9 / times[PROGRAMS.len() * of + at]));
            println!(
                "{program:<16} {:>9.0} calls/s ({:.0} to {:.0}), {:>6.1} MB/s, {:>5.0} ns a call",
                rate.median,
                rate.least,
                rate.most,
                rate.median * size / 1e6,
                1e9 / rate.median
            );
        }
    }
}

/// Linux's rusage: two times of two words each, then the resident size in KiB and what is not read here.
#[repr(C)]
struct Usage {
    times: [i64; 4],
    resident: i64,
    others: [i64; 13],
}

extern "C" {
    fn wait4(pid: i32, status: *mut i32, options: i32, usage: *mut Usage) -> i32;
}

/// Waits for a child and tells its greatest resident size, in KiB.
fn resident(child: &Child) -> i64 {
    let mut status = 0;
    let mut usage = Usage {
        times: [0; 4],
        resident: 0,
        others: [0; 13],
    };
    // SAFETY: the C library writes a status and one rusage, which has this layout on 64-bit Linux.
    let pid = unsafe { wait4(child.id() as i32, &mut status, 0, &mut usage) };
    assert_eq!(
        (pid, status),
        (child.id() as i32, 0),
        "the program ends well"
    );
    usage.resident
}

/// Runs a program on a trace of one pair, then on one of 1 GB, and prints its greatest resident size.
pub fn memory(program: &[&str], rides: &[Ride]) {
    let file = env::temp_dir().join(format!("night-{}", process::id()));
    let (_, piece) = &traces(rides)[1];
    let first = usize::from(piece[0]);
    let pair = first + usize::from(piece[first]);
    for (name, part, least) in [
        ("one pair", &piece[..pair], 1),
        ("1 GB", &piece[..], 1_000_000_000),
    ] {
        let mut out = BufWriter::new(File::create(&file).expect("a trace can be made"));
        let mut size = 0;
        while size < least {
            out.write_all(part).expect("a trace can be written");
            size += part.len();
        }
        out.into_inner()
            .expect("a trace can be written")
            .sync_all()
            .expect("it is written");
        let mut child = Command::new(program[0])
            .args(&program[1..])
            .arg(&file)
            .stdout(Stdio::piped())
            .spawn()
            .expect("the program can be started");
        let mut wrote = String::new();
        let mut out = child.stdout.take().expect("it has an output");
        out.read_to_string(&mut wrote).expect("it writes lines");
        let lines: Vec<&str> = wrote.lines().collect();
        println!(
            "{name}: {size} bytes, resident {} KiB; {}",
            resident(&child),
            lines.join(", ")
        );
    }
    fs::remove_file(file).expect("it is there");
}
