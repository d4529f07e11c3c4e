//! This replay beside another one: the same traces, the same five numbers.

use crate::beside::hex;
use crate::replay::{replay, Five};
use crate::sample::traces::{Trace, Traces};
use std::collections::BTreeMap;
use std::fmt;

/// How many traces were compared, by kind, and what was counted in all.
#[derive(Clone, Debug, Default, PartialEq, Eq)]
pub struct Tally {
    pub kinds: BTreeMap<String, u64>,
    pub calls: u64,
    pub same: u64,
    pub differ: u64,
    /// Traces with a rest.
    pub torn: u64,
}

/// The first trace at which the replays differ.
#[derive(Clone, Debug)]
pub struct Difference {
    /// Counted from 1.
    pub at: u64,
    pub trace: Trace,
    pub this: Five,
    pub other: Five,
}

/// Replays `count` traces of a seed both ways.
pub fn replays(
    seed: u64,
    count: u64,
    mut other: impl FnMut(&[u8]) -> Five,
) -> Result<Tally, Box<Difference>> {
    let mut traces = Traces::new(seed);
    let mut tally = Tally::default();
    for at in 1..=count {
        let trace = traces.draw();
        let (this, other) = (replay(&trace.bytes), other(&trace.bytes));
        if this != other {
            return Err(Box::new(Difference {
                at,
                trace,
                this,
                other,
            }));
        }
        tally.add(trace.kind, this);
    }
    Ok(tally)
}

/// Replays both ways and prints the tally or the first difference; tells
/// whether there was none.
pub fn replays_agree(seed: u64, count: u64, other: impl FnMut(&[u8]) -> Five) -> bool {
    match replays(seed, count, other) {
        Ok(tally) => print!("{tally}"),
        Err(difference) => {
            print!("{difference}");
            return false;
        }
    }
    true
}

impl Tally {
    fn add(&mut self, kind: String, (calls, same, differ, _, rest): Five) {
        *self.kinds.entry(kind).or_default() += 1;
        self.calls += calls;
        self.same += same;
        self.differ += differ;
        self.torn += u64::from(rest > 0);
    }

    /// How many traces were compared.
    pub fn all(&self) -> u64 {
        self.kinds.values().sum()
    }
}

impl fmt::Display for Tally {
    fn fmt(&self, out: &mut fmt::Formatter) -> fmt::Result {
        writeln!(out, "compared {} traces", self.all())?;
        for (kind, times) in &self.kinds {
            writeln!(out, "{times:>9}  {kind}")?;
        }
        writeln!(out, "{:>9}  calls", self.calls)?;
        writeln!(out, "{:>9}  same", self.same)?;
        writeln!(out, "{:>9}  differ", self.differ)?;
        writeln!(out, "{:>9}  traces with a rest", self.torn)
    }
}

impl fmt::Display for Difference {
    fn fmt(&self, out: &mut fmt::Formatter) -> fmt::Result {
        let Trace { kind, bytes, .. } = &self.trace;
        writeln!(out, "trace {} differs: {kind}", self.at)?;
        writeln!(out, "trace, {} bytes: {}", bytes.len(), hex(bytes))?;
        for (name, five) in [("this", self.this), ("other", self.other)] {
            let (calls, same, differ, first, rest) = five;
            writeln!(
                out,
                "{name} replay: calls {calls} same {same} differ {differ} first {first} rest {rest}"
            )?;
        }
        Ok(())
    }
}
