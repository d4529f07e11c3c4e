//! Rides per second of the proved composer, beside two Rust programs on the same rides: the plain one, which adds over all
//! choices, and the best that we can write.
//!
//! All answer the same requests whole: the refusals are tested, the numerators summed, the points rounded, and all arrays
//! written. Before anything is timed their answers are compared, every place of every array too.

mod best;
mod binomials;
mod clock;
mod lent;
mod night;
mod patches;
mod plain;
mod rides;
mod ticks;
mod torn;

use lent::{Lent, Long, Short};
use rides::Ride;
use second::xorshift::Xorshift;
use second::Answer;
use std::hint::black_box;
use std::process::Command;
use std::{array, env};

const SEED: u64 = 14;
const RIDES: usize = 10_000;
/// Rides at the edges of the bounds, compared besides.
const EDGES: usize = 20_000;
/// How often this program starts itself anew to time the mixed rides: where its memory happens to lie is worth a few in a
/// hundred, and is the same for one run.
const RUNS: usize = 15;
/// How often a run times each program, in turn with the others.
const ROUNDS: usize = 7;
/// How long a program is timed at once, in nanoseconds.
const SPELL: f64 = 4e7;
/// Rides of each cell of the tables.
const ALIKE: usize = 600;
/// How often the tables are gone through. Of a cell the least of its medians counts, for each program: what else a machine does
/// adds to a time and takes nothing from it, and lasts longer than one cell.
const VISITS: usize = 7;

type Program<L> = (&'static str, fn(&Ride, &mut L) -> Answer);

/// The programs for one kind of rides: the composer, and the plain and the best program.
trait Rides: Lent + Sized + 'static {
    const PROGRAMS: &'static [Program<Self>];
    /// How many times the plain program's rides the composer is to answer.
    const TIMES_PLAIN: f64;
}

/// The most of the best program's time that the composer is to take.
const TIMES_BEST: f64 = 1.7;
/// The most of the plain program's time that it is to take where there is no argument.
const TIMES_LEAST: f64 = 2.5;
/// Where the plain program takes longer than this, in nanoseconds, the composer is to be no slower.
const LONG_RIDE: f64 = 100.0;

impl Rides for Short {
    const PROGRAMS: &'static [Program<Short>] = &[
        ("composer", composer),
        ("plain", plain::compose::<Short, 13>),
        ("best", best::compose::<Short, 13>),
    ];
    const TIMES_PLAIN: f64 = 5.0;
}

impl Rides for Long {
    const PROGRAMS: &'static [Program<Long>] = &[
        ("composer", composer_long),
        ("plain", plain::compose::<Long, 25>),
        ("best", best::compose::<Long, 25>),
    ];
    const TIMES_PLAIN: f64 = 15.0;
}

fn composer(ride: &Ride, lent: &mut Short) -> Answer {
    composed(ride, &mut lent.high, &mut lent.low, &mut lent.points)
}

fn composer_long(ride: &Ride, lent: &mut Long) -> Answer {
    composed(ride, &mut lent.high, &mut lent.low, &mut lent.points)
}

#[inline(always)]
fn composed(ride: &Ride, high: &mut [i64], low: &mut [u64], points: &mut [i32]) -> Answer {
    native::compose(
        ride.form,
        ride.first,
        ride.second,
        ride.n,
        ride.age,
        &ride.surface,
        &ride.path,
        high,
        low,
        points,
    )
    .0
}

fn main() {
    let words: Vec<String> = env::args().skip(1).collect();
    let words: Vec<&str> = words.iter().map(String::as_str).collect();
    let mut rng = Xorshift::new(SEED);
    let short = |rng: &mut Xorshift| rides::mixed(rng, RIDES, Short::MOST);
    match words[..] {
        [] => report::<Short>(&mut rng, "once"),
        ["once"] => print(&once::<Short>(&short(&mut rng))),
        ["long"] => report::<Long>(&mut rng, "long-once"),
        ["long-once"] => print(&once::<Long>(&rides::mixed(&mut rng, RIDES, Long::MOST))),
        ["night"] => {
            let runs: [_; RUNS] = array::from_fn(|_| run("night-once"));
            night::report(&short(&mut rng), &runs);
        }
        ["night-once"] => print(&night::once(&short(&mut rng))),
        ["tick"] => {
            let runs: [_; RUNS] = array::from_fn(|_| run("tick-once"));
            ticks::report(&mut rng, &runs);
        }
        ["tick-once"] => print(&ticks::once(&mut rng)),
        ["torn"] => torn::report(&short(&mut rng)),
        ["patch"] => {
            let runs: [_; RUNS] = array::from_fn(|_| run("patch-once"));
            patches::report(&mut rng, &runs);
        }
        ["patch-once"] => print(&patches::once(&mut rng)),
        ["memory", ..] => night::memory(&words[1..], &short(&mut rng)),
        _ => panic!("{} is not measured", words.join(" ")),
    }
}

/// One run's times, for the run that started it.
fn print(times: &[f64]) {
    let words: Vec<String> = times.iter().map(f64::to_string).collect();
    println!("{}", words.join(" "));
}

/// Another run of this program, and the times that it prints.
fn run(word: &str) -> Vec<f64> {
    let program = env::current_exe().expect("the program has a path");
    let ended = Command::new(program)
        .arg(word)
        .output()
        .expect("it can be started again");
    let said = String::from_utf8_lossy(&ended.stderr);
    assert!(ended.status.success(), "{said}");
    let text = String::from_utf8(ended.stdout).expect("it prints numbers");
    let numbers = text.split_whitespace();
    numbers
        .map(|word| word.parse().expect("a number"))
        .collect()
}

/// Nanoseconds of processor time a ride, over all rides once for each pass. The arrays are lent again for every ride and
/// not cleared between rides.
fn time<L: Lent>((_, compose): Program<L>, rides: &[Ride], passes: usize) -> f64 {
    let mut lent = L::marked();
    let compose = black_box(compose);
    let start = clock::used();
    for _ in 0..passes {
        for ride in rides {
            black_box(compose(black_box(ride), black_box(&mut lent)));
        }
    }
    (clock::used() - start) / (passes * rides.len()) as f64
}

/// The median time of each program, over rounds in which each has its turn; how many passes make a spell is found first, which
/// also warms up.
fn times<L: Rides>(rides: &[Ride], rounds: usize, spell: f64) -> Vec<f64> {
    let programs = L::PROGRAMS;
    let passes: Vec<usize> = programs
        .iter()
        .map(|&program| (spell / (time(program, rides, 1) * rides.len() as f64)) as usize + 1)
        .collect();
    let mut all = vec![Vec::new(); programs.len()];
    for round in 0..rounds {
        for turn in 0..programs.len() {
            let at = (round + turn) % programs.len();
            all[at].push(time(programs[at], rides, passes[at]));
        }
    }
    all.into_iter()
        .map(|times| Spread::of(times.into_iter()).median)
        .collect()
}

fn once<L: Rides>(rides: &[Ride]) -> Vec<f64> {
    times::<L>(rides, ROUNDS, SPELL)
}

/// The median, the least and the greatest.
struct Spread {
    median: f64,
    least: f64,
    most: f64,
}

impl Spread {
    fn of(values: impl Iterator<Item = f64>) -> Self {
        let mut values: Vec<f64> = values.collect();
        values.sort_by(f64::total_cmp);
        Spread {
            median: values[values.len() / 2],
            least: values[0],
            most: values[values.len() - 1],
        }
    }
}

/// Stops where two programs answer a ride differently, or one does not accept it. Tells how many places were compared, and how
/// many of them are exact halves.
fn compare<L: Rides>(rides: &[Ride]) -> [usize; 2] {
    let (mut places, mut halves) = (0, 0);
    for ride in rides {
        let mut expected = None;
        for (name, compose) in L::PROGRAMS {
            let mut lent = L::marked();
            let answer = compose(ride, &mut lent);
            assert_eq!(answer.number, 0, "{name} accepts the ride");
            match &expected {
                None => expected = Some((answer, lent)),
                Some(first) => assert_eq!((answer, lent), *first, "{name}, {ride:?}"),
            }
        }
        let (answer, lent) = expected.expect("there are programs");
        places += answer.count as usize;
        halves += (0..answer.count as usize)
            .filter(|&place| ride.is_half(place, lent.numerator(place)))
            .count();
    }
    [places, halves]
}

/// The whole report on one kind of rides.
fn report<L: Rides>(rng: &mut Xorshift, word: &str) {
    let rides = rides::mixed(rng, RIDES, L::MOST);
    compare::<L>(&rides);
    let [places, halves] = compare::<L>(&rides::edges(&mut Xorshift::new(!SEED), EDGES, L::MOST));
    let of_form = |form| rides.iter().filter(|ride| ride.form == form).count();
    let choices: u64 = rides.iter().map(Ride::choices).sum();
    println!(
        "{RIDES} accepted rides, N up to {}, seed {SEED}: {} of form 1, {} of form 2, {} of form 3; {:.1} choices a ride",
        L::MOST,
        of_form(1),
        of_form(2),
        of_form(3),
        choices as f64 / RIDES as f64
    );
    println!(
        "All answers and arrays are the same, and so they are for {EDGES} rides at the edges ({places} places written, \
         {halves} of them exact halves)."
    );
    println!("Output arrays are not cleared between rides.");

    let runs: Vec<Vec<f64>> = (0..RUNS).map(|_| run(word)).collect();
    println!("{RUNS} runs, the median run, and from the least to the greatest; processor time:\n");
    println!(
        "{:<10} {:>10}  {:<20} {:>9}",
        "", "rides/s", "least to greatest", "ns a ride"
    );
    for (at, (name, _)) in L::PROGRAMS.iter().enumerate() {
        let rate = Spread::of(runs.iter().map(|times| 1e9 / times[at]));
        let spread = format!("{:.0} to {:.0}", rate.least, rate.most);
        println!(
            "{name:<10} {:>10.0}  {spread:<20} {:>9.1}",
            rate.median,
            1e9 / rate.median
        );
    }
    let last = L::PROGRAMS.len() - 1;
    let ratio = |above: usize, below: usize| {
        Spread::of(runs.iter().map(|times| times[above] / times[below]))
    };
    println!("\nratios of one run, the median run, and from the least to the greatest:");
    let show = |what: &str, ratio: &Spread| {
        println!(
            "{what:<48} {:>6.2}  {:.2} to {:.2}",
            ratio.median, ratio.least, ratio.most
        );
    };
    show("best's rides a second, in plain's", &ratio(last - 1, last));
    show("composer's rides a second, in plain's", &ratio(1, 0));
    show("composer's time, in best's", &ratio(0, last));

    let names: Vec<&str> = L::PROGRAMS.iter().map(|(name, _)| *name).collect();
    let mut cells = Vec::new();
    for form in 1..=3 {
        for r in 0..=4 {
            for n in 0..=L::MOST {
                let rides = rides::alike(rng, ALIKE, form, r, n);
                compare::<L>(&rides);
                cells.push((form, r, n, rides, vec![f64::INFINITY; names.len()]));
            }
        }
    }
    for _ in 0..VISITS {
        for (_, _, _, rides, least) in &mut cells {
            for (least, time) in least.iter_mut().zip(times::<L>(rides, 9, SPELL / 40.0)) {
                *least = least.min(time);
            }
        }
    }
    for (form, r, n, _, cell) in &cells {
        if *r == 0 && *n == 0 {
            print!("\nform {form}: ns a ride, {}\n{:6}", names.join(" / "), "");
            for n in 0..=L::MOST {
                print!(" {:>18}", format!("N = {n}"));
            }
        }
        if *n == 0 {
            print!("\nr = {r}:");
        }
        let words: Vec<String> = cell.iter().map(|time| format!("{time:.0}")).collect();
        print!(" {:>18}", words.join(" / "));
        if *r == 4 && *n == L::MOST {
            println!();
        }
    }
    println!("\nbars:");
    let bar = |what: &str, holds: bool| {
        println!("{what}: {}", if holds { "holds" } else { "does not hold" })
    };
    let plain = ratio(1, 0).median;
    bar(
        &format!(
            "at least {} times plain's rides a second: {plain:.2}",
            L::TIMES_PLAIN
        ),
        plain >= L::TIMES_PLAIN,
    );
    let best = ratio(0, last).median;
    bar(
        &format!("at most {TIMES_BEST} times best's time: {best:.2}"),
        best <= TIMES_BEST,
    );
    let slower: Vec<String> = cells
        .iter()
        .filter(|(.., cell)| cell[1] > LONG_RIDE && cell[0] > cell[1])
        .map(|(form, r, n, _, cell)| {
            format!(
                "form {form}, r = {r}, N = {n}: {:.0} / {:.0}",
                cell[0], cell[1]
            )
        })
        .collect();
    bar(
        &format!(
            "cells where plain takes over {LONG_RIDE} ns and less than the composer: {}",
            slower.len()
        ),
        slower.is_empty(),
    );
    for cell in slower {
        println!("  {cell}");
    }
    let least = cells.iter().filter(|(_, r, ..)| *r == 0);
    let least = Spread::of(least.map(|(.., cell)| cell[0] / cell[1]));
    bar(
        &format!(
            "at most {TIMES_LEAST} times plain's time where r = 0: {:.2} in the median cell, {:.2} to {:.2}",
            least.median, least.least, least.most
        ),
        least.most <= TIMES_LEAST,
    );
}
