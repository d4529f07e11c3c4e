//! Ticket 13 (rule Salvage): salvage a torn trace.

use second::edition::{Edition, AGED, SHORT};
use second::replay::replay_of;
use second::salvage::{salvage, Salvaged};
use second::sample::traces::{Recorder, Traces};
use second::xorshift::Xorshift;

/// What the recorder's replies are right for.
const RECORDED: Edition = Edition {
    longest: 128,
    ..SHORT
};

/// P1 on a sample of age 0 and its reply, a pair of 30 bytes.
const PAIR: [u8; 30] = [
    18, 0, 2, 0, 1, 1, 0, 1, 0, 0, 0, 0, 100, 0, 0, 0, 0, 4, //
    12, 0, 1, 0x80, 0, 0, 2, 0, 0, 0, 100, 0,
];

/// The torn trace again: the skipped bytes put back at their offsets.
fn put_back(torn: &[u8], salvaged: &Salvaged) -> Vec<u8> {
    let mut bytes = Vec::new();
    let mut kept = salvaged.kept.iter();
    for &(offset, length) in &salvaged.skips {
        let (offset, length) = (offset as usize, length as usize);
        bytes.extend(kept.by_ref().take(offset - bytes.len()));
        bytes.extend(&torn[offset..offset + length]);
    }
    bytes.extend(kept);
    bytes
}

/// All that must hold of any bytes.
fn check(edition: &Edition, torn: &[u8]) -> Salvaged {
    let salvaged = salvage(edition, torn);
    assert_eq!(put_back(torn, &salvaged), torn);
    // Runs are longest, in order, and not empty.
    let mut end = None;
    for &(offset, length) in &salvaged.skips {
        assert!(length > 0 && !end.is_some_and(|end| offset <= end));
        end = Some(offset + length);
    }
    // A second salvage keeps everything, and a replay finds nothing.
    let again = salvage(edition, &salvaged.kept);
    assert_eq!(again.kept, salvaged.kept);
    assert_eq!(again.skips, []);
    let (calls, same, differ, first, rest) = replay_of(edition, &salvaged.kept);
    assert_eq!((differ, first, rest), (0, 0, 0));
    assert_eq!(calls, same);
    salvaged
}

#[test]
fn whole_and_empty() {
    assert_eq!(check(&AGED, &[]), Salvaged::default());
    let salvaged = check(&AGED, &PAIR);
    assert_eq!(
        (&salvaged.kept[..], salvaged.lines()),
        (&PAIR[..], String::new())
    );
}

#[test]
fn torn_before_between_and_after() {
    let torn = [&[5, 0, 9][..], &PAIR, &[7], &PAIR, &PAIR, &PAIR[..29]].concat();
    let salvaged = check(&AGED, &torn);
    assert_eq!(salvaged.kept, PAIR.repeat(3));
    assert_eq!(salvaged.lines(), "skip 0 3\nskip 33 1\nskip 94 29\n");
}

/// Every cut of two pairs, at either end.
#[test]
fn cut_anywhere() {
    let two = PAIR.repeat(2);
    for count in 0..=60 {
        let whole = count / 30 * 30;
        let salvaged = check(&AGED, &two[..count]);
        assert_eq!(salvaged.kept, two[..whole]);
        let salvaged = check(&AGED, &two[60 - count..]);
        assert_eq!(salvaged.kept, two[60 - whole..]);
    }
}

/// What today's door answers otherwise is skipped: a byte changed in the
/// request or the reply, a request without an age, another kind.
#[test]
fn what_the_door_answers_otherwise() {
    for at in 0..30 {
        for bit in 0..8 {
            let mut torn = [&PAIR[..], &PAIR, &PAIR].concat();
            torn[30 + at] ^= 1 << bit;
            let salvaged = check(&AGED, &torn);
            // Some bytes do not matter to the reply.
            if salvaged.kept.len() == 60 {
                assert_eq!(salvaged.skips, [(30, 30)]);
            } else {
                assert_eq!(salvaged.kept, torn);
            }
        }
    }
    let told = &PAIR[18..];
    let ageless = [
        &[16, 0, 1, 0, 1, 1, 0, 1, 0, 0, 100, 0, 0, 0, 0, 4][..],
        told,
    ]
    .concat();
    assert_eq!(check(&AGED, &ageless).skips, [(0, 28)]);
    assert_eq!(check(&RECORDED, &ageless).kept, ageless);
    // A request without an age is kept where STALE is recorded.
    let stale = [&ageless[..16], &[8, 0, 1, 0x80, 10, 0, 0, 0]].concat();
    assert_eq!(check(&AGED, &stale).kept, stale);
    // FRAME is the right reply to kind 0x0003, and still it is no request.
    let other = [8, 0, 3, 0, 1, 1, 0, 1, 8, 0, 1, 0x80, 9, 0, 0, 0];
    assert_eq!(check(&AGED, &other).skips, [(0, 16)]);
    let mut own = other;
    own[2] = 2;
    assert_eq!(check(&AGED, &own).kept, own);
}

/// A pair that starts inside a skipped one, and a length that points past the
/// end.
#[test]
fn inside() {
    // The first record's body holds the start of a pair.
    let torn = [&[40, 0, 2, 0, 1, 1, 0, 1, 0, 0][..], &PAIR, &PAIR].concat();
    let salvaged = check(&AGED, &torn);
    assert_eq!(salvaged.kept, PAIR.repeat(2));
    assert_eq!(salvaged.skips, [(0, 10)]);
    let torn = [&PAIR[..], &[128, 0, 2, 0], &PAIR, &[12, 0]].concat();
    assert_eq!(check(&AGED, &torn).skips, [(30, 4), (64, 2)]);
}

#[test]
fn records_of_128_bytes_are_kept() {
    for length in [126, 127, 128, 129] {
        let mut torn = vec![0; length];
        torn[..4].copy_from_slice(&[length as u8, 0, 2, 0]);
        // Form 0 is KIND.
        torn.extend([8, 0, 1, 0x80, 1, 0, 0, 0]);
        let kept = check(&AGED, &torn).kept.len();
        assert_eq!(kept == torn.len(), length <= 128);
    }
}

/// Traces of every kind, noise put in, bytes left out and changed.
#[test]
fn random_torn_traces() {
    let mut rng = Xorshift::new(131);
    let mut traces = Traces::new(132);
    let mut recorder = Recorder::new(133);
    let (mut kept, mut skipped) = (0, 0);
    for turn in 0..3000 {
        let mut torn = match turn % 3 {
            0 => traces.draw().bytes,
            _ => recorder.tape(1 + turn % 5, 6).bytes,
        };
        for _ in 0..rng.below(4) {
            let at = rng.below(torn.len() + 1);
            match rng.below(3) {
                0 => drop(torn.splice(at..at, (0..rng.below(40)).map(|_| rng.bits() as u8))),
                1 => torn.truncate(at),
                _ => drop(torn.drain(at..(at + rng.below(40)).min(torn.len()))),
            }
        }
        let salvaged = check(&RECORDED, &torn);
        kept += salvaged.kept.len();
        skipped += salvaged.skips.len();
    }
    assert!(kept > 100_000 && skipped > 1000, "{kept} {skipped}");
}
