//! This program beside another one, for what later tickets ask: the same
//! seeded questions, the same answers.

use crate::card::{card, Carded, Part};
use crate::convert::{convert, Converted};
use crate::edition::{Edition, LONG};
use crate::entries;
use crate::long;
use crate::patch::patch;
use crate::replay::{replay_of, Five};
use crate::salvage::{salvage, Salvaged};
use crate::sample::cards::Cards;
use crate::sample::longs::Longs;
use crate::sample::patches::Patches;
use crate::sample::ticks::Ticks;
use crate::sample::torn::Torn;
use crate::sheet::{sheet, Sheet};
use crate::tick::{tick, Tick};
use crate::Answer;
use std::collections::BTreeMap;
use std::fmt::Debug;

/// How many questions of each kind were asked.
pub type Tally = BTreeMap<String, u64>;

/// Has both answer `count` questions. The first that they answer differently
/// is told.
pub fn compared<Q: Debug, A: PartialEq + Debug>(
    count: u64,
    mut draw: impl FnMut() -> (String, Q),
    this: impl Fn(&Q) -> A,
    mut other: impl FnMut(&Q) -> A,
) -> Result<Tally, String> {
    let mut tally = Tally::new();
    for at in 1..=count {
        let (kind, question) = draw();
        let (this, other) = (this(&question), other(&question));
        if this != other {
            return Err(format!(
                "question {at} differs: {kind}\n{question:?}\nthis:  {this:?}\nother: {other:?}\n"
            ));
        }
        *tally.entry(kind).or_default() += 1;
    }
    Ok(tally)
}

/// Prints how a comparison ended; tells whether nothing differs.
pub fn shown(what: &str, compared: Result<Tally, String>) -> bool {
    match &compared {
        Ok(tally) => {
            println!("compared {} {what}", tally.values().sum::<u64>());
            for (kind, times) in tally {
                println!("{times:>9}  {kind}");
            }
        }
        Err(difference) => print!("{difference}"),
    }
    compared.is_ok()
}

/// Long rides: the answer, its entries and all three arrays, which are marked
/// beforehand.
pub fn longs(
    seed: u64,
    count: u64,
    mut other: impl FnMut(&crate::Request, &mut [i64], &mut [u64], &mut [i32]) -> (Answer, u64),
) -> Result<Tally, String> {
    let mut draws = Longs::new(seed);
    let this = |request: &crate::Request, high: &mut [i64], low: &mut [u64], points: &mut [i32]| {
        let answer = long::compose(
            request.form,
            request.first,
            request.second,
            request.n,
            request.age,
            request.surface,
            request.path,
            high,
            low,
            points,
        );
        (answer, entries::told(request, &LONG, &answer))
    };
    compared(
        count,
        || draws.draw(),
        |asked| asked.answered(this),
        |asked| asked.answered(&mut other),
    )
}

/// Patches: the answer and both arrays, which are marked beforehand.
pub fn patches(
    seed: u64,
    count: u64,
    mut other: impl FnMut(u32, u32, &[i32], &[i32], &mut [i64], &mut [i32]) -> Answer,
) -> Result<Tally, String> {
    let mut draws = Patches::new(seed);
    compared(
        count,
        || draws.draw(),
        |asked| asked.answered(patch),
        |asked| asked.answered(&mut other),
    )
}

/// Readings at a tick.
pub fn ticks(
    seed: u64,
    count: u64,
    mut other: impl FnMut(&[i32], u32) -> Tick,
) -> Result<Tally, String> {
    let mut draws = Ticks::new(seed);
    compared(
        count,
        || draws.draw(),
        |(points, k)| tick(points, *k),
        |(points, k)| other(points, *k),
    )
}

/// Parts for the card, compared by bits.
pub fn cards(
    seed: u64,
    count: u64,
    mut other: impl FnMut(u32, &[i32], Part) -> Carded,
) -> Result<Tally, String> {
    fn bits(carded: Carded) -> ([u32; 3], [u64; 5]) {
        let Carded {
            number,
            place,
            record,
        } = carded;
        let numerators = record.numerators.map(f64::to_bits);
        ([number, place, record.count], numerators)
    }
    let mut draws = Cards::new(seed);
    compared(
        count,
        || draws.draw(),
        |(m, surface, part)| bits(card(*m, surface, *part)),
        |(m, surface, part)| bits(other(*m, surface, *part)),
    )
}

/// Conversions of old traces: the trace that is made and how many requests
/// were changed, and the five numbers, here of the old trace by the old rule,
/// there of the made one by the new.
pub fn converts(
    seed: u64,
    count: u64,
    mut other: impl FnMut(&[u8]) -> Option<(Converted, Five)>,
) -> Result<Tally, String> {
    let mut draws = Torn::of(&LONG, seed);
    compared(
        count,
        || draws.old(),
        |trace| convert(trace).map(|converted| (converted, replay_of(&LONG, trace))),
        |trace| other(trace),
    )
}

/// Sheets of traces cut into parts: the sheet after each of them.
pub fn sheets(
    seed: u64,
    count: u64,
    longest: usize,
    mut other: impl FnMut(&[Vec<u8>]) -> Vec<Sheet>,
) -> Result<Tally, String> {
    let mut draws = Torn::new(seed);
    let this = |parts: &Vec<Vec<u8>>| -> Vec<Sheet> {
        (1..=parts.len())
            .map(|count| sheet(longest, &parts[..count].concat()))
            .collect()
    };
    compared(count, || draws.parts(), this, |parts| other(parts))
}

/// Salvages of torn traces.
pub fn salvages(
    seed: u64,
    count: u64,
    edition: &Edition,
    mut other: impl FnMut(&[u8]) -> Salvaged,
) -> Result<Tally, String> {
    let mut draws = Torn::new(seed);
    compared(
        count,
        || draws.torn(),
        |trace| salvage(edition, trace),
        |trace| other(trace),
    )
}
