//! Ticket 11 (rule Part of a curve): the f64 card, worked out in whole numbers
//! and turned into f64 at the very end.

use crate::binomial::binomial;
use crate::composed::numerators;
use crate::quantity::{PathNumber, Travel, SCALE};
use crate::refusal::{Refusal, Refused};
use crate::shape::{Form, Shape};

/// The part of a curve: a stay at one path number or a line between two.
#[derive(Clone, Copy, Debug, PartialEq)]
pub enum Part {
    Stay(f64),
    Line(f64, f64),
}

/// The numerators over 1024^m; places beyond the count are plus zero.
#[derive(Clone, Copy, Debug, PartialEq)]
pub struct Record {
    pub numerators: [f64; 5],
    pub count: u32,
}

/// The answer of a curve of degree m.
#[derive(Clone, Copy, Debug, PartialEq)]
pub struct Carded {
    pub number: u32,
    pub place: u32,
    pub record: Record,
}

/// The record of what is refused.
const NOTHING: Record = Record {
    numerators: [0.0; 5],
    count: 0,
};

/// Answers one part: DEGREE, SURFACE and VALUE first, then PARAMETER with the
/// place of the first path number that is not a whole 0 to 1,024.
pub fn card(m: u32, surface: &[i32], part: Part) -> Carded {
    match record(m, surface, part) {
        Ok(record) => Carded {
            number: 0,
            place: 0,
            record,
        },
        Err(refused) => Carded {
            number: refused.refusal.number(),
            place: refused.place as u32,
            record: NOTHING,
        },
    }
}

fn record(m: u32, surface: &[i32], part: Part) -> Result<Record, Refused> {
    if m > 4 {
        return Err(Refusal::Degree.at(0));
    }
    let degree = m as usize;
    if surface.len() != degree + 1 {
        return Err(Refusal::Surface.at(0));
    }
    let mut travels = Vec::new();
    for (place, &value) in surface.iter().enumerate() {
        travels.push(Travel::new(value).ok_or(Refusal::Value.at(place))?);
    }
    let named = match part {
        Part::Stay(at) => vec![at],
        Part::Line(from, to) => vec![from, to],
    };
    let mut path = Vec::new();
    for (place, &number) in named.iter().enumerate() {
        path.push(whole(number).ok_or(Refusal::Parameter.at(place))?);
    }
    let shape = Shape {
        form: Form::Curve,
        first: degree,
        second: 0,
        path_degree: path.len() - 1,
    };
    let numerators = numerators(&shape, &travels, &path);
    let mut record = NOTHING;
    record.count = numerators.len() as u32;
    for (place, &numerator) in numerators.iter().enumerate() {
        let ways = binomial(shape.length(), place);
        assert_eq!(
            numerator % ways,
            0,
            "one blossom value is taken in {ways} ways"
        );
        record.numerators[place] = exactly(numerator / ways);
    }
    Ok(record)
}

/// The path number that an f64 is, if it is one. Minus zero is zero.
fn whole(number: f64) -> Option<PathNumber> {
    (0..=SCALE)
        .find(|&candidate| f64::from(candidate) == number)
        .and_then(PathNumber::new)
}

/// A whole number as f64, which has it exactly.
fn exactly(number: i128) -> f64 {
    let turned = number as f64;
    assert_eq!(turned as i128, number, "f64 has every whole number to 2^53");
    turned
}
