//! Ticket 13 (rule Salvage): what can be saved of a torn trace.

use crate::door::door_of;
use crate::edition::Edition;
use crate::record::{word, AGED, REQUEST};
use crate::replay::pair;

/// The kept pairs, and each longest run of skipped bytes: where it starts in
/// the torn trace, and how long it is.
#[derive(Clone, Debug, Default, PartialEq, Eq)]
pub struct Salvaged {
    pub kept: Vec<u8>,
    pub skips: Vec<(u64, u64)>,
}

/// From offset 0: where a request of kind 0x0001 or 0x0002 and its reply
/// start, each whole and of a length that a trace holds, and the door answers
/// that reply byte for byte, both are kept and passed; else one byte is
/// skipped.
pub fn salvage(edition: &Edition, torn: &[u8]) -> Salvaged {
    let mut salvaged = Salvaged::default();
    let mut at = 0;
    while at < torn.len() {
        match whole(edition, &torn[at..]) {
            Some(length) => {
                salvaged.kept.extend(&torn[at..at + length]);
                at += length;
            }
            None => {
                match salvaged.skips.last_mut() {
                    Some((offset, length)) if *offset + *length == at as u64 => *length += 1,
                    _ => salvaged.skips.push((at as u64, 1)),
                }
                at += 1;
            }
        }
    }
    salvaged
}

/// The length of the pair to keep that starts here, if one does.
fn whole(edition: &Edition, bytes: &[u8]) -> Option<usize> {
    let (request, reply, _) = pair(edition.longest, bytes)?;
    if ![REQUEST, AGED].contains(&word(request, 2)) {
        return None;
    }
    let mut room = vec![0; edition.room()];
    let count = door_of(edition, request, &mut room);
    (room[..count] == *reply).then_some(request.len() + reply.len())
}

impl Salvaged {
    /// What the program prints.
    pub fn lines(&self) -> String {
        let line = |(offset, length): &(u64, u64)| format!("skip {offset} {length}\n");
        self.skips.iter().map(line).collect()
    }
}
