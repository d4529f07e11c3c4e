//! This salvage beside another one: the same torn traces, the same kept pairs
//! and the same lines.

use crate::beside::hex;
use crate::edition::TODAY;
use crate::salvage::salvage;
use crate::sample::torn::Torn;
use std::collections::BTreeMap;

/// What a salvage leaves: the kept pairs, and the lines.
pub type Left = (Vec<u8>, String);

/// Salvages `count` traces of a seed both ways and prints what was compared,
/// or the first difference; tells whether there was none.
pub fn salvages_agree(seed: u64, count: u64, mut other: impl FnMut(&[u8]) -> Left) -> bool {
    let mut torn = Torn::new(seed);
    let mut kinds: BTreeMap<String, u64> = BTreeMap::new();
    let (mut bytes, mut kept, mut runs) = (0, 0, 0);
    for at in 1..=count {
        let (kind, trace) = torn.torn();
        let salvaged = salvage(&TODAY, &trace);
        let this = (salvaged.kept.clone(), salvaged.lines());
        let other = other(&trace);
        if this != other {
            println!("trace {at} differs: {kind}");
            println!("trace, {} bytes: {}", trace.len(), hex(&trace));
            for (name, (file, lines)) in [("this", this), ("other", other)] {
                println!("{name} salvage: {} bytes kept: {}", file.len(), hex(&file));
                print!("{lines}");
            }
            return false;
        }
        *kinds.entry(kind).or_default() += 1;
        bytes += trace.len();
        kept += salvaged.kept.len();
        runs += salvaged.skips.len();
    }
    println!("compared {count} torn traces");
    for (kind, times) in kinds {
        println!("{times:>9}  {kind}");
    }
    println!("{bytes:>9}  bytes\n{kept:>9}  of them kept\n{runs:>9}  runs of skipped bytes");
    true
}
