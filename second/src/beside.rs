//! This door beside another one: the same records, the same bytes.

use crate::door::door;
use crate::sample::records::{Record, Records};
use crate::xorshift::Xorshift;
use std::collections::BTreeMap;
use std::fmt;

/// How many bytes stand before and after what is lent.
const GUARD: usize = 16;

/// How many bytes of a record or a reply are shown at most.
const SHOWN: usize = 2048;

/// How many records were compared, by kind and by the reply's number.
#[derive(Clone, Debug, Default, PartialEq, Eq)]
pub struct Tally {
    pub kinds: BTreeMap<String, u64>,
    pub numbers: BTreeMap<u8, u64>,
    /// Records with too little room for a reply.
    pub silent: u64,
}

/// The first record at which the doors differ.
#[derive(Clone, Debug)]
pub struct Difference {
    /// Counted from 1.
    pub at: u64,
    pub record: Record,
    pub this: Outcome,
    pub other: Outcome,
}

/// What a door did: the count it told, and all bytes around what it was lent.
#[derive(Clone, Debug, PartialEq, Eq)]
pub struct Outcome {
    pub told: usize,
    /// The request with its guards.
    pub request: Vec<u8>,
    /// The room with its guards.
    pub reply: Vec<u8>,
}

/// Asks both doors `count` records of a seed.
///
/// The request and the room stand between guard bytes, all of them random.
/// Both doors must tell the same count and leave every byte the same, the
/// guards and the request as they were.
pub fn doors(
    seed: u64,
    count: u64,
    mut other: impl FnMut(&[u8], &mut [u8]) -> usize,
) -> Result<Tally, Box<Difference>> {
    let mut records = Records::new(seed);
    let mut rng = Xorshift::new(!seed);
    let mut tally = Tally::default();
    for at in 1..=count {
        let record = records.draw();
        let request = guarded(&mut rng, &record.bytes);
        let room: Vec<u8> = (0..record.room).map(|_| rng.bits() as u8).collect();
        let reply = guarded(&mut rng, &room);
        let this = ask(&request, &reply, &mut |request, reply| door(request, reply));
        let other = ask(&request, &reply, &mut other);
        if this != other {
            return Err(Box::new(Difference {
                at,
                record,
                this,
                other,
            }));
        }
        tally.add(record.kind, this.told, &this.reply[GUARD..]);
    }
    Ok(tally)
}

/// Asks both doors and prints the tally or the first difference; tells
/// whether there was none.
pub fn doors_agree(seed: u64, count: u64, other: impl FnMut(&[u8], &mut [u8]) -> usize) -> bool {
    match doors(seed, count, other) {
        Ok(tally) => print!("{tally}"),
        Err(difference) => {
            print!("{difference}");
            return false;
        }
    }
    true
}

/// These bytes with random guards around them.
fn guarded(rng: &mut Xorshift, bytes: &[u8]) -> Vec<u8> {
    let mut guard = || (0..GUARD).map(|_| rng.bits() as u8).collect::<Vec<u8>>();
    [&guard(), bytes, &guard()].concat()
}

/// Asks one door, lending it what stands between the guards.
fn ask(request: &[u8], reply: &[u8], door: &mut impl FnMut(&[u8], &mut [u8]) -> usize) -> Outcome {
    let (request, mut reply) = (request.to_vec(), reply.to_vec());
    let end = reply.len() - GUARD;
    let told = door(
        &request[GUARD..request.len() - GUARD],
        &mut reply[GUARD..end],
    );
    Outcome {
        told,
        request,
        reply,
    }
}

impl Tally {
    fn add(&mut self, kind: String, told: usize, reply: &[u8]) {
        *self.kinds.entry(kind).or_default() += 1;
        if told == 0 {
            self.silent += 1;
        } else {
            *self.numbers.entry(reply[4]).or_default() += 1;
        }
    }

    /// How many records were compared.
    pub fn all(&self) -> u64 {
        self.kinds.values().sum()
    }
}

impl fmt::Display for Tally {
    fn fmt(&self, out: &mut fmt::Formatter) -> fmt::Result {
        writeln!(out, "compared {} records", self.all())?;
        for (kind, times) in &self.kinds {
            writeln!(out, "{times:>9}  {kind}")?;
        }
        for (number, times) in &self.numbers {
            writeln!(out, "{times:>9}  answered {number}")?;
        }
        writeln!(out, "{:>9}  without room for a reply", self.silent)
    }
}

impl fmt::Display for Difference {
    fn fmt(&self, out: &mut fmt::Formatter) -> fmt::Result {
        let Record {
            kind, bytes, room, ..
        } = &self.record;
        writeln!(out, "record {} differs: {kind}", self.at)?;
        writeln!(out, "record, {} bytes: {}", bytes.len(), hex(bytes))?;
        for (door, outcome) in [("this", &self.this), ("other", &self.other)] {
            let told = outcome.told;
            let end = outcome.reply.len() - GUARD;
            let lent = hex(&outcome.reply[GUARD..end]);
            writeln!(out, "{door} door tells {told}, room {room}: {lent}")?;
            let (before, after) = (&outcome.reply[..GUARD], &outcome.reply[end..]);
            writeln!(out, "  guards: {} and {}", hex(before), hex(after))?;
        }
        if self.this.request != self.other.request {
            writeln!(out, "the request was written to")?;
        }
        Ok(())
    }
}

/// Bytes in hex, two digits each.
pub(crate) fn hex(bytes: &[u8]) -> String {
    let shown = &bytes[..bytes.len().min(SHOWN)];
    let mut text: String = shown.iter().map(|byte| format!("{byte:02x}")).collect();
    if shown.len() < bytes.len() {
        text.push('…');
    }
    text
}
