//! Ticket 12 (rule Daily sheet): the daily sheet of a trace, fed as it comes.

use crate::record::{word, HEAD, REPLY};
use crate::replay::pair;
use std::fmt::Write;

/// The largest number of a reply that is not odd.
const MOST_NUMBER: u8 = 10;

/// The sheet of the recorded replies.
#[derive(Clone, Debug, Default, PartialEq, Eq)]
pub struct Sheet {
    pub odd: u64,
    /// How many replies carry each number, 0 for accepted.
    pub refusals: [u64; MOST_NUMBER as usize + 1],
    /// The least and the most over accepted points.
    pub span: Option<(i16, i16)>,
}

/// What is known of a trace of which some parts have come.
#[derive(Clone, Debug)]
pub struct Feed {
    longest: usize,
    sheet: Sheet,
    /// The bytes that have come and are not yet part of a whole pair.
    held: Vec<u8>,
}

impl Feed {
    /// Of a trace whose records are at most `longest`.
    pub fn new(longest: usize) -> Self {
        Feed {
            longest,
            sheet: Sheet::default(),
            held: Vec::new(),
        }
    }

    /// Takes a part. Once the reading has ended nothing that comes after can
    /// make a pair of what is held, so nothing changes.
    pub fn take(&mut self, part: &[u8]) {
        self.held.extend(part);
        while let Some((_, reply, after)) = pair(self.longest, &self.held) {
            self.sheet.add(reply);
            self.held = after.to_vec();
        }
    }

    /// The sheet of what has come.
    pub fn sheet(&self) -> &Sheet {
        &self.sheet
    }
}

/// The sheet of a whole trace.
pub fn sheet(longest: usize, trace: &[u8]) -> Sheet {
    let mut sheet = Sheet::default();
    let mut rest = trace;
    while let Some((_, reply, after)) = pair(longest, rest) {
        sheet.add(reply);
        rest = after;
    }
    sheet
}

impl Sheet {
    /// Adds a reply, which is a whole record.
    fn add(&mut self, reply: &[u8]) {
        let (number, count) = (reply[4], usize::from(reply[6]));
        let odd = word(reply, 2) != REPLY
            || number > MOST_NUMBER
            || reply.len() != HEAD + 2 * count
            || number != 0 && count != 0;
        if odd {
            self.odd += 1;
            return;
        }
        self.refusals[usize::from(number)] += 1;
        for two in reply[HEAD..].chunks(2) {
            let point = i16::from_le_bytes([two[0], two[1]]);
            let (least, most) = self.span.unwrap_or((point, point));
            self.span = Some((least.min(point), most.max(point)));
        }
    }

    /// The fourteen lines.
    pub fn lines(&self) -> String {
        let mut text = format!("odd {}\n", self.odd);
        for (number, count) in self.refusals.iter().enumerate() {
            writeln!(text, "refusal {number} {count}").expect("a string takes it");
        }
        let [least, most] = match self.span {
            Some((least, most)) => [least, most].map(|point| point.to_string()),
            None => ["none", "none"].map(str::to_string),
        };
        text + &format!("least {least}\nmost {most}\n")
    }
}
