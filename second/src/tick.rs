//! Ticket 9 (rule Reading at a tick): the curve of a composed net, read at k/1024.

use crate::quantity::{REACH, SCALE};
use crate::rounding::nearest;

/// The parts of a unit in which values are carried.
pub const PARTS: i128 = 65_536;

/// The most points of a net.
pub const MOST_POINTS: usize = 25;

/// Refusal 11, of a moment beyond 1,024.
pub const MOMENT: u32 = 11;

const SURFACE: u32 = 3;
const VALUE: u32 = 6;

/// What is told: a number, a place, and the reading in 1/65,536 of a unit.
#[derive(Clone, Copy, Debug, PartialEq, Eq)]
pub struct Tick {
    pub number: u32,
    pub place: u32,
    pub reading: i64,
}

/// Reads the curve of these points at k/1024.
///
/// No point or more than 25 is SURFACE, a point beyond 4,096 in size VALUE
/// with its least place, k above 1,024 MOMENT, in that order; the place is
/// otherwise 0, and the reading of what is refused is 0. Each de Casteljau
/// step rounds to the nearest, halves away from zero.
pub fn tick(points: &[i32], k: u32) -> Tick {
    let refused = |number, place| Tick {
        number,
        place,
        reading: 0,
    };
    if points.is_empty() || points.len() > MOST_POINTS {
        return refused(SURFACE, 0);
    }
    let beyond = |point: &i32| !(-REACH..=REACH).contains(point);
    if let Some(place) = points.iter().position(beyond) {
        return refused(VALUE, place as u32);
    }
    if k > SCALE as u32 {
        return refused(MOMENT, 0);
    }
    let (near, far) = (i128::from(SCALE as u32 - k), i128::from(k));
    let mut values: Vec<i128> = points.iter().map(|&p| PARTS * i128::from(p)).collect();
    while values.len() > 1 {
        values = values
            .windows(2)
            .map(|pair| nearest(near * pair[0] + far * pair[1], i128::from(SCALE)))
            .collect();
    }
    Tick {
        number: 0,
        place: 0,
        reading: i64::try_from(values[0]).expect("a reading is at most 2^28 in size"),
    }
}
