//! Ticket 6 (rule Two words): longer rides, N up to 6 and L up to 24, two words to a numerator.

use crate::composed::composed;
use crate::edition::LONG;
use crate::words::words;
use crate::{Answer, Request};

/// Answers one request.
///
/// Refused, no array changes. Accepted, the first L+1 places of each of the
/// three are written and all later places stay.
#[allow(clippy::too_many_arguments)]
pub fn compose(
    form: u32,
    first: u32,
    second: u32,
    n: u32,
    age: u16,
    surface: &[i32],
    path: &[i32],
    high: &mut [i64],
    low: &mut [u64],
    points: &mut [i32],
) -> Answer {
    let request = Request {
        form,
        first,
        second,
        n,
        age,
        surface,
        path,
    };
    let room = high.len().min(low.len()).min(points.len());
    let composed = match composed(&request, &LONG, room) {
        Ok(composed) => composed,
        Err(refused) => return refused.answer(),
    };
    for (place, &(numerator, point)) in composed.iter().enumerate() {
        (high[place], low[place]) = words(numerator);
        points[place] = point;
    }
    Answer::accepted(composed.len())
}
