//! A torn trace: megabytes per second of the proved salvage on a clean trace, on noise, and on the worst bytes that we can think of,
//! beside the second program's on the same bytes.

use crate::night::exchange;
use crate::rides::Ride;
use crate::{clock, Spread};
use second::edition::TODAY;
use second::salvage::salvage;
use second::xorshift::Xorshift;
use std::hint::black_box;

const ROUNDS: usize = 7;
const SIZE: usize = 400_000;

/// Bytes of which every eighth offset is the start of a whole pair, its request one that the door accepts: form 2, l = m = 2 and N = 2, whose
/// age, control values and path numbers are the heads that follow. The door composes it, and answers otherwise.
const WORST: [u8; 8] = [40, 0, 2, 0, 2, 2, 2, 2];

pub fn report(rides: &[Ride]) {
    let clean: Vec<u8> = rides.iter().flat_map(exchange).collect();
    let mut rng = Xorshift::new(13);
    let noise = (0..SIZE).map(|_| rng.bits() as u8).collect();
    let heads = [8, 0, 2, 0].repeat(SIZE / 4);
    let worst = WORST.repeat(SIZE / WORST.len());
    for (name, trace) in [
        ("clean: accepted rides", clean),
        ("noise", noise),
        ("a short request at every fourth offset", heads),
        ("an accepted ride at every eighth offset", worst),
    ] {
        let salvaged = salvage(&TODAY, &trace);
        let in_parts = || native::salvage(&trace, || 65_536);
        assert_eq!(in_parts(), (salvaged.kept.clone(), salvaged.lines()), "{name}");
        let rate = |once: &dyn Fn()| {
            let start = clock::used();
            once();
            trace.len() as f64 * 1e3 / (clock::used() - start)
        };
        let this = Spread::of((0..ROUNDS).map(|_| rate(&|| drop(black_box(in_parts())))));
        // the second program asks its own door, which adds over all choices: once is enough
        let second = rate(&|| drop(black_box(salvage(&TODAY, &trace))));
        println!(
            "{name}: {} bytes, {} kept; salvage {:.1} MB/s ({:.1} to {:.1}), second {:.1} MB/s",
            trace.len(),
            salvaged.kept.len(),
            this.median,
            this.least,
            this.most,
            second
        );
    }
}
