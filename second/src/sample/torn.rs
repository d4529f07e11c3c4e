//! Random traces for the converter, the sheet and the salvage of tickets 10, 12 and
//! 13 (rule Old traces, rule Daily sheet, rule Salvage), the same for the same seed.

use super::traces::{Recorder, Traces};
use crate::edition::{Edition, TODAY};
use crate::record::{put, settle, HEAD, REPLY};
use crate::xorshift::Xorshift;

/// The stream of one seed.
pub struct Torn {
    rng: Xorshift,
    traces: Traces,
    recorder: Recorder,
    turn: usize,
    /// The trace that is cut, and where next.
    whole: Vec<u8>,
    next: usize,
}

impl Torn {
    pub fn new(seed: u64) -> Self {
        Self::of(&TODAY, seed)
    }

    /// The same over what an edition's recorder made.
    pub fn of(edition: &'static Edition, seed: u64) -> Self {
        let mut recorder = Recorder::of(edition, !seed);
        Torn {
            rng: Xorshift::new(seed.wrapping_add(13)),
            traces: Traces::of(edition, seed),
            whole: recorder.tape(3, 4).bytes,
            recorder,
            turn: 0,
            next: 0,
        }
    }

    /// A trace for the converter: every kind of a replay's, and records of
    /// lengths about both bounds in a request's and in a reply's place.
    pub fn old(&mut self) -> (String, Vec<u8>) {
        self.turn += 1;
        if self.turn % 2 == 0 {
            let trace = self.traces.draw();
            return (trace.kind, trace.bytes);
        }
        let mut bytes = self.few();
        let length = self.rng.pick(&[7, 8, 9, 125, 126, 127, 128, 129, 130]);
        let mut odd = self.recorder.random(length);
        let kind = self.rng.pick(&[0x0001, 0x0001, 0x0002, 0x0003, REPLY]);
        put(&mut odd, 2, kind);
        let what = match self.rng.below(3) {
            0 => {
                let reply = self.recorder.answered(&odd);
                bytes.extend([odd, reply].concat());
                "request"
            }
            1 => {
                bytes.extend([self.recorder.exchange().0, odd].concat());
                "reply"
            }
            _ => {
                let cut = self.rng.below(odd.len() + 1);
                bytes.extend(&odd[..cut]);
                "cut record"
            }
        };
        bytes.extend(self.few());
        (format!("{what} of {length} bytes"), bytes)
    }

    /// A trace for the sheet in parts, some of them without a byte.
    pub fn parts(&mut self) -> (String, Vec<Vec<u8>>) {
        self.turn += 1;
        let (kind, bytes) = match self.turn % 3 {
            0 => {
                let trace = self.traces.draw();
                (trace.kind, trace.bytes)
            }
            1 => ("recorded day".to_string(), self.few()),
            _ => {
                let mut bytes = self.few();
                for _ in 0..1 + self.rng.below(6) {
                    bytes.extend([self.recorder.exchange().0, self.reply()].concat());
                }
                ("replies of every oddity".to_string(), bytes)
            }
        };
        let most = self.rng.pick(&[1, 5, 40, 400, 5000]);
        // A long trace is not cut into single bytes.
        let most = most.max(bytes.len() / 100);
        let mut parts = Vec::new();
        let mut rest = &bytes[..];
        while !rest.is_empty() {
            let (part, after) = rest.split_at(self.rng.below(most + 1).min(rest.len()));
            parts.push(part.to_vec());
            rest = after;
        }
        parts.push(Vec::new());
        (kind, parts)
    }

    /// A trace for the salvage: noise before, between and inside pairs, pairs
    /// inside skipped ones, requests of another kind that the door answers so,
    /// lengths that point past the end, and a trace cut after each of its
    /// bytes.
    pub fn torn(&mut self) -> (String, Vec<u8>) {
        self.turn += 1;
        match self.turn % 6 {
            5 => {
                let mut bytes = self.few();
                let mut request = self.recorder.exchange().0;
                let kind = self.rng.pick(&[0x0000, 0x0003, 0x0101, REPLY]);
                put(&mut request, 2, kind);
                let reply = self.recorder.answered(&request);
                bytes.extend([request, reply].concat());
                bytes.extend(self.few());
                ("another kind".to_string(), bytes)
            }
            0 => {
                let trace = self.traces.draw();
                (trace.kind, trace.bytes)
            }
            1 => {
                if self.next > self.whole.len() {
                    self.whole = self.few();
                    self.next = 0;
                }
                self.next += 1;
                let cut = self.whole[..self.next - 1].to_vec();
                ("cut".to_string(), cut)
            }
            2 => {
                let mut bytes = Vec::new();
                for _ in 0..self.rng.below(4) {
                    bytes.extend(self.noise());
                    bytes.extend(self.few());
                }
                bytes.extend(self.noise());
                ("noise between pairs".to_string(), bytes)
            }
            3 => {
                // The head of a record whose body holds whole pairs.
                let mut bytes = self.few();
                let mut head = vec![self.rng.bits() as u8 & 0x7f, 0, 2, 0, 1, 1, 0, 1];
                head.truncate(1 + self.rng.below(8));
                bytes.extend(head);
                bytes.extend(self.few());
                ("pairs inside a record".to_string(), bytes)
            }
            _ => {
                let mut bytes = self.few();
                for _ in 0..1 + self.rng.below(3) {
                    let at = self.rng.below(bytes.len() + 1);
                    match self.rng.below(4) {
                        0 => drop(bytes.splice(at..at, self.noise())),
                        1 => drop(bytes.drain(at..(at + self.rng.below(50)).min(bytes.len()))),
                        2 => bytes.truncate(at),
                        _ if at < bytes.len() => bytes[at] ^= 1 << self.rng.below(8),
                        _ => bytes.extend([128, 0, 1, 0]),
                    }
                }
                ("torn".to_string(), bytes)
            }
        }
    }

    /// Some pairs, a reply wrong now and then.
    fn few(&mut self) -> Vec<u8> {
        let count = self.rng.below(4);
        self.recorder.tape(count, 6).bytes
    }

    /// Random bytes, or bytes that look like heads of records.
    fn noise(&mut self) -> Vec<u8> {
        let count = self.rng.below(30);
        match self.rng.below(3) {
            0 => [8, 0, 1, 0].repeat(count / 4),
            _ => (0..count).map(|_| self.rng.bits() as u8).collect(),
        }
    }

    /// A reply, odd in one way or another, or not.
    fn reply(&mut self) -> Vec<u8> {
        let count = self.rng.pick(&[0, 0, 1, 2, 25, 60]);
        let number = self.rng.pick(&[0, 0, 0, 1, 9, 10, 11, 12, 127, 255]);
        let told = match self.rng.below(4) {
            0 => self.rng.below(256) as u8,
            _ => count as u8,
        };
        let kind = match self.rng.below(6) {
            0 => self.rng.pick(&[0x0001, 0x0002, 0x8000, 0x8002, 0x0180]),
            _ => REPLY,
        };
        let mut record = vec![0; HEAD];
        put(&mut record, 2, kind);
        record[4] = number;
        record[5] = self.rng.bits() as u8;
        record[6] = told;
        for _ in 0..count {
            let any = self.rng.between(-4096, 4096) as i16;
            let point = self.rng.pick(&[any, any, any, i16::MIN, i16::MAX, 0, -1]);
            record.extend(point.to_le_bytes());
        }
        if self.rng.once_in(8) {
            record.push(0);
        }
        settle(&mut record);
        record
    }
}
