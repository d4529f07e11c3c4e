//! The second program: the lean curve, composed by the plain sum.
//!
//! A request is a surface F, a path G and two rooms lent for the answer. The
//! answer is the composed curve H = F∘G: exact numerators and rounded points.
//! Nothing here is clever. Every choice of path points is visited, and every
//! blossom is worked out afresh from the net, in numbers wide enough that no
//! step can come near their ends. The door asks the same of bytes: one request
//! record, one reply record; and a replay asks the door a whole night.
//!
//! What tickets ask that have not landed is here too, each in its own module
//! and with its own tests: patches, the converter, the sheet and the salvage.

pub mod agree;
pub mod beside;
pub mod beside_replay;
pub mod beside_salvage;
pub mod binomial;
pub mod blossom;
pub mod card;
pub mod composed;
pub mod convert;
pub mod door;
pub mod edition;
pub mod entries;
pub mod line;
pub mod long;
pub mod patch;
pub mod patch_line;
pub mod quantity;
pub mod record;
pub mod refusal;
pub mod replay;
pub mod request;
pub mod ride;
pub mod rounding;
pub mod salvage;
pub mod sample;
pub mod shape;
pub mod sheet;
pub mod through;
pub mod tick;
pub mod tick_line;
pub mod words;
pub mod xorshift;

use edition::TODAY;

pub use refusal::Refusal;
pub use request::Request;
pub use shape::{Form, Shape};

/// What a request is told: a number, a place and a count.
///
/// Accepted: 0, 0, L+1. Refused: the refusal's number, a place, count 0.
#[derive(Clone, Copy, Debug, PartialEq, Eq)]
pub struct Answer {
    pub number: u32,
    pub place: u32,
    pub count: u32,
}

impl Answer {
    /// Accepted, with this many points.
    pub fn accepted(count: usize) -> Self {
        Answer {
            number: 0,
            place: 0,
            count: count as u32,
        }
    }
}

/// Answers one request; its age is that of the tilt sample in milliseconds.
///
/// A numerator is one whole number here; `long` has it by its two words.
/// Refused, neither array changes. Accepted, the first L+1 places of each
/// array are written and all later places stay.
#[allow(clippy::too_many_arguments)]
pub fn compose(
    form: u32,
    first: u32,
    second: u32,
    n: u32,
    age: u16,
    surface: &[i32],
    path: &[i32],
    exact: &mut [i128],
    points: &mut [i32],
) -> Answer {
    let request = Request {
        form,
        first,
        second,
        n,
        age,
        surface,
        path,
    };
    let room = exact.len().min(points.len());
    let composed = match composed::composed(&request, &TODAY, room) {
        Ok(composed) => composed,
        Err(refused) => return refused.answer(),
    };
    for (place, &(numerator, point)) in composed.iter().enumerate() {
        exact[place] = numerator;
        points[place] = point;
    }
    Answer::accepted(composed.len())
}
