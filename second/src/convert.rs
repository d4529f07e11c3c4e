//! Ticket 10 (rule Old traces): old traces made readable under the new rule.

use crate::edition::{AGED as NEW, LONG as OLD};
use crate::record::{put, settle, word, AGED, HEAD, REQUEST};
use crate::replay::{pair, split};

/// A converted trace, and how many requests were changed.
#[derive(Clone, Debug, PartialEq, Eq)]
pub struct Converted {
    pub bytes: Vec<u8>,
    pub changed: u64,
}

/// Converts a trace, unless its old reading ends at a record length that only
/// the new one takes, 127 or 128.
///
/// In each whole pair that the old reading takes a request of kind 0x0001
/// becomes 0x0002 with age 0, its length two more; all else is copied, and so
/// is everything from where the old reading ends.
pub fn convert(trace: &[u8]) -> Option<Converted> {
    let mut converted = Converted {
        bytes: Vec::new(),
        changed: 0,
    };
    let mut rest = trace;
    while let Some((request, reply, after)) = pair(OLD.longest, rest) {
        rest = after;
        if word(request, 2) == REQUEST {
            converted.bytes.extend(dated(request));
            converted.changed += 1;
        } else {
            converted.bytes.extend(request);
        }
        converted.bytes.extend(reply);
    }
    if ended_at(rest).is_some_and(|length| (OLD.longest + 1..=NEW.longest).contains(&length)) {
        return None;
    }
    converted.bytes.extend(rest);
    Some(converted)
}

/// A request of kind 0x0001 with age 0 after its N, which makes it 0x0002.
fn dated(request: &[u8]) -> Vec<u8> {
    let mut dated = request.to_vec();
    put(&mut dated, 2, AGED);
    dated.splice(HEAD..HEAD, [0, 0]);
    settle(&mut dated);
    dated
}

/// The record length at which the reading of a pair ends, if it is a length
/// that ends it and not the trace. What is left begins with no whole pair.
fn ended_at(rest: &[u8]) -> Option<usize> {
    let second = match split(OLD.longest, rest) {
        Some((_, second)) => second,
        None => rest,
    };
    let length = usize::from(u16::from_le_bytes(*second.first_chunk()?));
    (!(HEAD..=OLD.longest).contains(&length)).then_some(length)
}

/// What the program prints.
pub fn line(converted: Option<&Converted>) -> String {
    match converted {
        Some(converted) => format!("converted {}\n", converted.changed),
        None => "not converted\n".to_string(),
    }
}
