//! Readings per second of the proved reading at a tick, beside a plain Rust program on the same nets and moments.

use crate::{clock, Spread};
use second::tick::Tick;
use second::xorshift::Xorshift;
use std::hint::black_box;

const NETS: usize = 10_000;
const ROUNDS: usize = 7;
const PASSES: usize = 20;
/// The most of the plain program's time that the proved reading is to take.
const TIMES_PLAIN: f64 = 1.5;

type Read = fn(&[i32], u32) -> Tick;
type Net = (Vec<i32>, u32);

const PROGRAMS: [(&str, Read); 2] = [("reading", native::tick), ("plain", plain)];

/// Plain Rust: the refusals, then each step in place.
#[inline(never)]
fn plain(points: &[i32], k: u32) -> Tick {
    let refused = |number, place| Tick {
        number,
        place,
        reading: 0,
    };
    let count = points.len();
    if count == 0 || count > 25 {
        return refused(3, 0);
    }
    for (place, &point) in points.iter().enumerate() {
        if !(-4096..=4096).contains(&point) {
            return refused(6, place as u32);
        }
    }
    if k > 1024 {
        return refused(11, 0);
    }
    let (near, far) = (1024 - i64::from(k), i64::from(k));
    let mut values = [0; 25];
    for (value, &point) in values.iter_mut().zip(points) {
        *value = 65_536 * i64::from(point);
    }
    for left in (1..count).rev() {
        for i in 0..left {
            let all = near * values[i] + far * values[i + 1];
            let half = if all < 0 { -512 } else { 512 };
            values[i] = (all + half) / 1024;
        }
    }
    Tick {
        number: 0,
        place: 0,
        reading: values[0],
    }
}

/// Accepted nets of 1 to 25 points each within its bounds, and moments.
fn nets(rng: &mut Xorshift, count: usize, points: impl Fn(&mut Xorshift) -> usize) -> Vec<Net> {
    let net = |rng: &mut Xorshift| {
        let points = (0..points(rng)).map(|_| rng.between(-4096, 4096)).collect();
        (points, rng.between(0, 1024) as u32)
    };
    (0..count).map(|_| net(rng)).collect()
}

fn mixed(rng: &mut Xorshift) -> Vec<Net> {
    nets(rng, NETS, |rng| 1 + rng.below(25))
}

/// Nanoseconds of processor time a reading: the median of each program over rounds in which each has its turn.
fn times(nets: &[Net], rounds: usize, passes: usize) -> [f64; 2] {
    let mut all = [Vec::new(), Vec::new()];
    for round in 0..2 * rounds {
        let at = round % 2;
        let read = black_box(PROGRAMS[at].1);
        let start = clock::used();
        for _ in 0..passes {
            for (points, k) in nets {
                black_box(read(black_box(points), *k));
            }
        }
        all[at].push((clock::used() - start) / (passes * nets.len()) as f64);
    }
    all.map(|times| Spread::of(times.into_iter()).median)
}

pub fn once(rng: &mut Xorshift) -> [f64; 2] {
    times(&mixed(rng), ROUNDS, PASSES)
}

pub fn report(rng: &mut Xorshift, runs: &[Vec<f64>]) {
    let all = mixed(rng);
    for (points, k) in &all {
        assert_eq!(native::tick(points, *k), plain(points, *k), "{points:?} at {k}");
    }
    println!("{NETS} accepted nets of 1 to 25 points, each at its moment; all readings are the same");
    println!("{} runs, the median run, and from the least to the greatest; processor time:\n", runs.len());
    for (at, (name, _)) in PROGRAMS.iter().enumerate() {
        let rate = Spread::of(runs.iter().map(|times| 1e9 / times[at]));
        println!(
            "{name:<8} {:>10.0} readings/s ({:.0} to {:.0}), {:>6.1} ns a reading",
            rate.median,
            rate.least,
            rate.most,
            1e9 / rate.median
        );
    }
    let ratio = Spread::of(runs.iter().map(|times| times[0] / times[1]));
    println!(
        "\nthe reading's time, in plain's, of one run: {:.2} ({:.2} to {:.2})",
        ratio.median, ratio.least, ratio.most
    );
    println!("\npoints: ns a reading, reading / plain");
    for count in [1, 2, 3, 5, 9, 13, 17, 25] {
        let [ours, plain] = times(&nets(rng, 600, |_| count), 9, 3);
        println!("{count:>4}: {ours:>6.1} / {plain:.1}");
    }
    let holds = if ratio.median <= TIMES_PLAIN { "holds" } else { "does not hold" };
    println!("\nbar: at most {TIMES_PLAIN} times plain's time: {:.2}: {holds}", ratio.median);
}
