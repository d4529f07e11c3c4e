//! The door for the drive: one request slice in, one lent reply slice out.

use crate::composed::composed;
use crate::edition::{Edition, TODAY};
use crate::record::{self, word, AGED, AGED_HEAD, HEAD, REQUEST};
use crate::{Answer, Refusal, Request};

/// The least room for a reply.
pub const ROOM: usize = TODAY.room();

/// What a request that is no whole record is told: refusal 9, FRAME.
pub const FRAME: Answer = Answer {
    number: 9,
    place: 0,
    count: 0,
};

/// Answers one request record and tells the reply's byte count.
///
/// With less than the least room nothing is written and 0 is told. The slice
/// beyond the reply stays.
pub fn door(request: &[u8], reply: &mut [u8]) -> usize {
    door_of(&TODAY, request, reply)
}

/// The same of any edition.
pub fn door_of(edition: &Edition, request: &[u8], reply: &mut [u8]) -> usize {
    if reply.len() < edition.room() {
        return 0;
    }
    let (answer, points) = match answer(edition, request) {
        Ok(points) => (Answer::accepted(points.len()), points),
        Err(refused) => (refused, Vec::new()),
    };
    let record = record::reply(answer, &points);
    reply[..record.len()].copy_from_slice(&record);
    record.len()
}

/// The points of a request record, or what it is told when it is refused.
///
/// The frame comes first, then KIND, DEGREE and STALE, then the length of the
/// body, which stands for SURFACE and PATH. Room is always enough.
fn answer(edition: &Edition, record: &[u8]) -> Result<Vec<i32>, Answer> {
    let (carried, head) = framed(record).ok_or(FRAME)?;
    let [form, first, second, n] = [4, 5, 6, 7].map(|at| u32::from(record[at]));
    let age = carried.or(edition.ageless);
    let request = Request {
        form,
        first,
        second,
        n,
        age: age.unwrap_or(0),
        surface: &[],
        path: &[],
    };
    let shape = request.shape(edition).map_err(|refused| refused.answer())?;
    if age.is_none() {
        return Err(Refusal::Stale.at(0).answer());
    }
    let body = &record[head..];
    if body.len() != 2 * (shape.control_count() + shape.path_count()) {
        return Err(FRAME);
    }
    let numbers: Vec<i32> = body
        .chunks(2)
        .map(|two| i32::from(i16::from_le_bytes([two[0], two[1]])))
        .collect();
    let (surface, path) = numbers.split_at(shape.control_count());
    let request = Request {
        surface,
        path,
        ..request
    };
    let composed =
        composed(&request, edition, shape.length() + 1).map_err(|refused| refused.answer())?;
    Ok(composed.iter().map(|&(_, point)| point).collect())
}

/// The age that a request carries, if it does, and the size of its head, if
/// the slice has a whole head, is as long as it says, and is a request.
fn framed(record: &[u8]) -> Option<(Option<u16>, usize)> {
    if record.len() < HEAD || usize::from(word(record, 0)) != record.len() {
        return None;
    }
    match word(record, 2) {
        REQUEST => Some((None, HEAD)),
        AGED if record.len() >= AGED_HEAD => Some((Some(word(record, HEAD)), AGED_HEAD)),
        _ => None,
    }
}
