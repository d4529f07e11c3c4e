//! Patches per second of the proved composer of patches, beside a plain Rust program that adds over all choices, on the same patches.

use crate::{clock, Spread};
use second::xorshift::Xorshift;
use second::Answer;
use std::hint::black_box;

const PATCHES: usize = 4_000;
const ROUNDS: usize = 7;
/// How many times the plain program's patches the proved program is to answer.
const TIMES_PLAIN: f64 = 5.0;

/// An accepted patch: both degrees, the control values and the path numbers.
#[derive(Debug)]
pub struct Patch {
    n: u32,
    domain: u32,
    surface: Vec<i32>,
    path: Vec<i32>,
}

type Compose = fn(u32, u32, &[i32], &[i32], &mut [i64], &mut [i32]) -> Answer;

const PROGRAMS: [(&str, Compose); 2] = [("patches", native::patch), ("plain", plain)];

fn places(degree: usize) -> usize {
    (degree + 1) * (degree + 2) / 2
}

/// The binomial coefficient.
fn binomial(n: usize, k: usize) -> i64 {
    let mut value = 1;
    for at in 0..k {
        value = value * (n - at) as i64 / (at + 1) as i64;
    }
    value
}

/// n/d, rounded, a half going away from zero.
fn nearest(n: i64, d: i64) -> i64 {
    let half = if n < 0 { -(d / 2) } else { d / 2 };
    (n + half) / d
}

/// Plain Rust: the refusals, then every choice of a domain point for each argument, its blossom value from the surface on.
#[inline(never)]
fn plain(n: u32, domain: u32, surface: &[i32], path: &[i32], exact: &mut [i64], points: &mut [i32]) -> Answer {
    let refused = |number: u32, place: usize| Answer { number, place: place as u32, count: 0 };
    if n > 3 || domain > 3 {
        return refused(2, 0);
    }
    let (n, domain) = (n as usize, domain as usize);
    let (chosen, written) = (places(domain), places(n * domain));
    if surface.len() != places(n) {
        return refused(3, 0);
    }
    if path.len() != 3 * chosen {
        return refused(4, 0);
    }
    if exact.len() < written || points.len() < written {
        return refused(5, 0);
    }
    if let Some(place) = surface.iter().position(|value| !(-4096..=4096).contains(value)) {
        return refused(6, place);
    }
    if let Some(place) = path.iter().position(|number| !(0..=1024).contains(number)) {
        return refused(7, place);
    }
    if let Some(place) = path.chunks(3).position(|point| point.iter().sum::<i32>() != 1024) {
        return refused(8, place);
    }

    // the surface by rows of four, and each domain point's index, multinomial and three numbers
    let mut net = [[0_i64; 4]; 4];
    let mut at = 0;
    for (i, row) in net.iter_mut().enumerate().take(n + 1) {
        for value in row.iter_mut().take(n - i + 1) {
            *value = i64::from(surface[at]);
            at += 1;
        }
    }
    let mut terms = [([0_usize; 2], 0_i64, [0_i64; 3]); 10];
    let mut at = 0;
    for i in 0..=domain {
        for j in 0..=domain - i {
            let ways = binomial(domain, i) * binomial(domain - i, j);
            let numbers = [0, 1, 2].map(|part| i64::from(path[3 * at + part]));
            terms[at] = ([i, j], ways, numbers);
            at += 1;
        }
    }
    let longest = n * domain;
    let mut sums = [[0_i64; 10]; 10];
    for code in 0..chosen.pow(n as u32) {
        let mut rest = code;
        let (mut i, mut j, mut ways) = (0, 0, 1);
        let mut lower = net;
        for left in (0..n).rev() {
            let ([di, dj], more, [x, y, z]) = terms[rest % chosen];
            rest /= chosen;
            i += di;
            j += dj;
            ways *= more;
            for a in 0..=left {
                for b in 0..=left - a {
                    lower[a][b] = x * lower[a + 1][b] + y * lower[a][b + 1] + z * lower[a][b];
                }
            }
        }
        sums[i][j] += ways * lower[0][0];
    }
    let scale = 1_i64 << (10 * n);
    let mut at = 0;
    for i in 0..=longest {
        for j in 0..=longest - i {
            let ways = binomial(longest, i) * binomial(longest - i, j);
            exact[at] = sums[i][j];
            points[at] = nearest(sums[i][j], ways * scale) as i32;
            at += 1;
        }
    }
    Answer { number: 0, place: 0, count: written as u32 }
}

/// Accepted patches of these degrees.
fn alike(rng: &mut Xorshift, count: usize, degrees: impl Fn(&mut Xorshift) -> [usize; 2]) -> Vec<Patch> {
    let one = |rng: &mut Xorshift| {
        let [n, domain] = degrees(rng);
        let surface = (0..places(n)).map(|_| rng.between(-4096, 4096)).collect();
        let mut path = Vec::new();
        for _ in 0..places(domain) {
            let x = rng.between(0, 1024);
            let y = rng.between(0, 1024 - x);
            path.extend([x, y, 1024 - x - y]);
        }
        Patch { n: n as u32, domain: domain as u32, surface, path }
    };
    (0..count).map(|_| one(rng)).collect()
}

/// All sixteen pairs of degrees, drawn evenly.
fn mixed(rng: &mut Xorshift) -> Vec<Patch> {
    alike(rng, PATCHES, |rng| [rng.below(4), rng.below(4)])
}

/// Nanoseconds of processor time a patch: the median of each program over rounds in which each has its turn.
fn times(patches: &[Patch], rounds: usize, passes: usize) -> [f64; 2] {
    let mut all = [Vec::new(), Vec::new()];
    let (mut exact, mut points) = ([0; 55], [0; 55]);
    for round in 0..2 * rounds {
        let at = round % 2;
        let compose = black_box(PROGRAMS[at].1);
        let start = clock::used();
        for _ in 0..passes {
            for patch in patches {
                let Patch { n, domain, surface, path } = black_box(patch);
                black_box(compose(*n, *domain, surface, path, black_box(&mut exact), black_box(&mut points)));
            }
        }
        all[at].push((clock::used() - start) / (passes * patches.len()) as f64);
    }
    all.map(|times| Spread::of(times.into_iter()).median)
}

pub fn once(rng: &mut Xorshift) -> [f64; 2] {
    times(&mixed(rng), ROUNDS, 2)
}

pub fn report(rng: &mut Xorshift, runs: &[Vec<f64>]) {
    let all = mixed(rng);
    for patch in &all {
        let answers = PROGRAMS.map(|(_, compose)| {
            let (mut exact, mut points) = ([-7; 57], [-9; 56]);
            let answer = compose(patch.n, patch.domain, &patch.surface, &patch.path, &mut exact, &mut points);
            (answer, exact, points)
        });
        assert_eq!(answers[0].0.number, 0, "{patch:?}");
        assert_eq!(answers[0], answers[1], "{patch:?}");
    }
    println!("{PATCHES} accepted patches, both degrees 0 to 3, drawn evenly; all answers and arrays are the same");
    println!("{} runs, the median run, and from the least to the greatest; processor time:\n", runs.len());
    for (at, (name, _)) in PROGRAMS.iter().enumerate() {
        let rate = Spread::of(runs.iter().map(|times| 1e9 / times[at]));
        println!(
            "{name:<8} {:>10.0} patches/s ({:.0} to {:.0}), {:>8.1} ns a patch",
            rate.median,
            rate.least,
            rate.most,
            1e9 / rate.median
        );
    }
    let ratio = Spread::of(runs.iter().map(|times| times[1] / times[0]));
    println!(
        "\npatches a second, in plain's, of one run: {:.2} ({:.2} to {:.2})",
        ratio.median, ratio.least, ratio.most
    );
    println!("\nns a patch, patches / plain");
    for n in 0..=3 {
        print!("n = {n}:");
        for domain in 0..=3 {
            let [ours, plain] = times(&alike(rng, 200, |_| [n, domain]), 5, 3);
            print!(" {:>18}", format!("{ours:.0} / {plain:.0}"));
        }
        println!();
    }
    let holds = if ratio.median >= TIMES_PLAIN { "holds" } else { "does not hold" };
    println!("\nbar: at least {TIMES_PLAIN} times plain's patches a second: {:.2}: {holds}", ratio.median);
}
