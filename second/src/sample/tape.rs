//! A trace while it is recorded: what a replay of it must count is known.

use super::records::Records;
use crate::door::door_of;
use crate::edition::{Edition, TODAY};
use crate::record::{put, settle, word, HEAD};
use crate::replay::Five;
use crate::xorshift::Xorshift;

/// A trace and what is known of its pairs.
#[derive(Clone, Debug, Default)]
pub struct Tape {
    pub bytes: Vec<u8>,
    /// Where each whole pair ends, and whether its reply is wrong. What comes
    /// after the last one is a tail.
    pairs: Vec<(usize, bool)>,
}

impl Tape {
    /// Puts a pair after the others.
    pub fn push(&mut self, request: &[u8], reply: &[u8], wrong: bool) {
        self.bytes.extend([request, reply].concat());
        self.pairs.push((self.bytes.len(), wrong));
    }

    /// What a replay must count.
    pub fn five(&self) -> Five {
        let calls = self.pairs.len() as u64;
        let differ = self.pairs.iter().filter(|(_, wrong)| *wrong).count() as u64;
        let first = self.pairs.iter().position(|(_, wrong)| *wrong);
        let first = first.map_or(0, |at| at as u64 + 1);
        let end = self.pairs.last().map_or(0, |(end, _)| *end);
        let rest = (self.bytes.len() - end) as u64;
        (calls, calls - differ, differ, first, rest)
    }

    /// The trace cut off after so many bytes.
    pub fn cut(mut self, count: usize) -> Self {
        self.bytes.truncate(count);
        self.pairs.retain(|(end, _)| *end <= count);
        self
    }
}

/// The stream of exchanges of one seed.
pub struct Recorder {
    edition: &'static Edition,
    pub(super) rng: Xorshift,
    records: Records,
}

impl Recorder {
    /// Today's recorder.
    pub fn new(seed: u64) -> Self {
        Self::of(&TODAY, seed)
    }

    /// The recorder of an edition: what its door replies, in records that its
    /// traces hold.
    pub fn of(edition: &'static Edition, seed: u64) -> Self {
        Recorder {
            edition,
            rng: Xorshift::new(!seed),
            records: Records::new(seed),
        }
    }

    /// The least and the largest length of a record.
    pub fn lengths(&self) -> [usize; 2] {
        [HEAD, self.edition.longest]
    }

    /// The reply to a request.
    pub fn answered(&self, request: &[u8]) -> Vec<u8> {
        let mut reply = vec![0; self.edition.room()];
        let count = door_of(self.edition, request, &mut reply);
        reply.truncate(count);
        reply
    }

    /// A length that no recorded record has.
    fn no_length(&mut self) -> u16 {
        let [least, most] = self.lengths();
        let none: Vec<u16> = ODD_LENGTHS
            .into_iter()
            .filter(|&length| !(least..=most).contains(&usize::from(length)))
            .collect();
        self.rng.pick(&none)
    }

    /// A trace of `count` pairs, the reply wrong once in `times`, or never if
    /// that is 0.
    pub fn tape(&mut self, count: usize, times: usize) -> Tape {
        let mut tape = Tape::default();
        for _ in 0..count {
            let (request, mut reply) = self.exchange();
            let wrong = times > 0 && self.rng.once_in(times);
            if wrong {
                reply = self.mistaken(&reply);
            }
            tape.push(&request, &reply, wrong);
        }
        tape
    }

    /// A request that a trace can hold, and its reply.
    pub fn exchange(&mut self) -> (Vec<u8>, Vec<u8>) {
        loop {
            let request = self.records.draw().bytes;
            let [least, most] = self.lengths();
            let held = (least..=most).contains(&request.len());
            if held && usize::from(word(&request, 0)) == request.len() {
                let reply = self.answered(&request);
                return (request, reply);
            }
        }
    }

    /// A reply that a trace can hold, other than this one.
    pub fn mistaken(&mut self, reply: &[u8]) -> Vec<u8> {
        let [least, most] = self.lengths();
        let mut other = reply.to_vec();
        while other == reply {
            match self.rng.below(6) {
                0..=1 => {
                    let at = 2 + self.rng.below(other.len() - 2);
                    other[at] ^= 1 << self.rng.below(8);
                }
                2 => other.truncate(other.len() - self.rng.pick(&[1, 2])),
                3 => other.extend(vec![0; self.rng.pick(&[1, 2, 26])]),
                4 => other = self.exchange().1,
                _ => {
                    let length = least + self.rng.below(most - least + 1);
                    other = self.random(length);
                }
            }
            other.resize(other.len().clamp(least, most), 0);
            settle(&mut other);
        }
        other
    }

    /// A record of this length with random bytes in it, 2 or more.
    pub fn random(&mut self, length: usize) -> Vec<u8> {
        let mut record: Vec<u8> = (0..length).map(|_| self.rng.bits() as u8).collect();
        settle(&mut record);
        record
    }

    /// Puts a tail after a trace in which no further pair can be read.
    pub fn tear(&mut self, tape: &mut Tape) {
        let (mut request, mut reply) = self.exchange();
        match self.rng.below(3) {
            0 => {
                let pair = [request, reply].concat();
                let count = 1 + self.rng.below(pair.len() - 1);
                tape.bytes.extend(&pair[..count]);
                return;
            }
            1 => put(&mut request, 0, self.no_length()),
            _ => put(&mut reply, 0, self.no_length()),
        }
        tape.bytes.extend([request, reply].concat());
        // What comes after is not read either.
        let after = self.rng.below(3);
        tape.bytes.extend(self.tape(after, 0).bytes);
    }
}

/// Lengths of which an edition's records have none, or only the least and the
/// largest few.
const ODD_LENGTHS: [u16; 14] = [
    0, 1, 6, 7, 127, 128, 129, 255, 256, 264, 0x0800, 0x7e00, 0x8000, 0xffff,
];
