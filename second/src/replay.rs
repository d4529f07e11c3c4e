//! Replaying a night: a recorded trace, request and reply in turn.

use crate::door::door_of;
use crate::edition::{Edition, TODAY};
use crate::record::HEAD;

/// What a replay counts: calls, same, differ, first and rest.
pub type Five = (u64, u64, u64, u64, u64);

/// Asks the door each recorded request afresh and compares its reply with the
/// recorded one, to the byte.
///
/// `first` is the first pair that differs, counted from 1, or 0 if none does.
/// A record length outside its bounds, or a pair cut off, ends the reading;
/// the bytes from that pair's start are `rest`.
pub fn replay(trace: &[u8]) -> Five {
    replay_of(&TODAY, trace)
}

/// The same of any edition.
pub fn replay_of(edition: &Edition, trace: &[u8]) -> Five {
    let (mut calls, mut same, mut first) = (0, 0, 0);
    let mut rest = trace;
    while let Some((request, reply, after)) = pair(edition.longest, rest) {
        rest = after;
        calls += 1;
        let mut room = vec![0; edition.room()];
        let count = door_of(edition, request, &mut room);
        if room[..count] == *reply {
            same += 1;
        } else if first == 0 {
            first = calls;
        }
    }
    (calls, same, calls - same, first, rest.len() as u64)
}

/// The request and the reply with which a trace starts, and what comes after;
/// records are at most `longest`.
pub fn pair(longest: usize, trace: &[u8]) -> Option<(&[u8], &[u8], &[u8])> {
    let (request, after) = split(longest, trace)?;
    let (reply, after) = split(longest, after)?;
    Some((request, reply, after))
}

/// The record with which a trace starts, and what comes after.
pub fn split(longest: usize, trace: &[u8]) -> Option<(&[u8], &[u8])> {
    let length = usize::from(u16::from_le_bytes(*trace.first_chunk()?));
    if !(HEAD..=longest).contains(&length) {
        return None;
    }
    trace.split_at_checked(length)
}

/// The five lines.
pub fn lines((calls, same, differ, first, rest): Five) -> String {
    format!("calls {calls}\nsame {same}\ndiffer {differ}\nfirst {first}\nrest {rest}\n")
}
