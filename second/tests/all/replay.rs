//! Replaying a night: the five numbers, where the reading ends, and this
//! replay beside others.

use second::beside_replay::{replays, replays_agree};
use second::door::{door, ROOM};
use second::replay::{lines, replay, Five};
use second::sample::traces::{Recorder, Traces};
use std::collections::BTreeMap;

/// P1 and its reply.
const P1: [u8; 18] = [18, 0, 2, 0, 1, 1, 0, 1, 0, 0, 0, 0, 100, 0, 0, 0, 0, 4];
const TOLD: [u8; 12] = [12, 0, 1, 0x80, 0, 0, 2, 0, 0, 0, 100, 0];

/// A refused request and its reply: form 0 is KIND.
const NONE: [u8; 8] = [8, 0, 1, 0, 0, 0, 0, 0];
const KIND: [u8; 8] = [8, 0, 1, 0x80, 1, 0, 0, 0];

/// A record of this length, its other bytes 0.
fn record(length: u8) -> Vec<u8> {
    let mut bytes = vec![0; length.into()];
    bytes[0] = length;
    bytes
}

/// The reply to a request.
fn told(request: &[u8]) -> Vec<u8> {
    let mut reply = [0; ROOM];
    let count = door(request, &mut reply);
    reply[..count].to_vec()
}

#[test]
fn an_empty_trace() {
    assert_eq!(replay(&[]), (0, 0, 0, 0, 0));
    let text = "calls 0\nsame 0\ndiffer 0\nfirst 0\nrest 0\n";
    assert_eq!(lines(replay(&[])), text);
}

#[test]
fn same_and_differ() {
    let good = [&P1[..], &TOLD, &NONE, &KIND].concat();
    assert_eq!(replay(&good), (2, 2, 0, 0, 0));
    let text = "calls 3\nsame 2\ndiffer 1\nfirst 2\nrest 0\n";
    let other = [&good[..], &P1, &TOLD].concat();
    let mut wrong = other.clone();
    wrong[16 + 12 + 8 + 4] = 2;
    assert_eq!(lines(replay(&wrong)), text);
    assert_eq!(replay(&other), (3, 3, 0, 0, 0));
    // Both later ones differ; the first of them counts.
    let last = wrong.len() - 1;
    wrong[last] ^= 1;
    assert_eq!(replay(&wrong), (3, 1, 2, 2, 0));
    wrong[16 + 7] = 1;
    assert_eq!(replay(&wrong), (3, 0, 3, 1, 0));
}

/// The reply is longer or shorter than the one told, its length true.
#[test]
fn a_reply_of_another_length_differs() {
    let mut longer = TOLD.to_vec();
    longer.extend([0, 0]);
    longer[0] = 14;
    let mut shorter = TOLD[..10].to_vec();
    shorter[0] = 10;
    for reply in [longer, shorter, record(8), record(128)] {
        let trace = [&P1[..], &reply, &P1, &TOLD].concat();
        assert_eq!(replay(&trace), (2, 1, 1, 1, 0));
    }
}

#[test]
fn lengths_8_and_128_are_read_and_7_and_129_are_not() {
    for length in 0..=255 {
        let good = [&P1[..], &TOLD].concat();
        let after = [&P1[..], &TOLD].concat();
        let mut odd = record(length.max(2));
        odd[0] = length;
        // As a request with its reply.
        let pair = [&odd[..], &told(&odd)].concat();
        let trace = [&good[..], &pair, &after].concat();
        if (8..=128).contains(&length) {
            assert_eq!(replay(&trace), (3, 3, 0, 0, 0));
        } else {
            let rest = (pair.len() + after.len()) as u64;
            assert_eq!(replay(&trace), (1, 1, 0, 0, rest));
        }
        // As a reply.
        let pair = [&P1[..], &odd].concat();
        let trace = [&good[..], &pair, &after].concat();
        if (8..=128).contains(&length) {
            assert_eq!(replay(&trace), (3, 2, 1, 2, 0));
        } else {
            let rest = (pair.len() + after.len()) as u64;
            assert_eq!(replay(&trace), (1, 1, 0, 0, rest));
        }
    }
}

/// The length has two bytes.
#[test]
fn lengths_beyond_a_byte_are_not_read() {
    for high in 1..=255 {
        let mut trace = [&P1[..], &TOLD].concat();
        trace[1] = high;
        trace.resize(70_000, 0);
        assert_eq!(replay(&trace), (0, 0, 0, 0, 70_000));
        let mut trace = [&P1[..], &TOLD].concat();
        trace[19] = high;
        trace.resize(70_000, 0);
        assert_eq!(replay(&trace), (0, 0, 0, 0, 70_000));
    }
}

#[test]
fn cut_anywhere() {
    let pairs = [&P1[..], &TOLD, &NONE, &KIND, &P1, &KIND].concat();
    for count in 0..=pairs.len() {
        let five = match count {
            0..30 => (0, 0, 0, 0, count),
            30..46 => (1, 1, 0, 0, count - 30),
            46..72 => (2, 2, 0, 0, count - 46),
            _ => (3, 2, 1, 3, 0),
        };
        let (calls, same, differ, first, rest) = five;
        let five = (calls, same, differ, first, rest as u64);
        assert_eq!(replay(&pairs[..count]), five);
    }
}

/// A request is a record of its own: its age, its kind and its length are
/// judged by the door.
#[test]
fn requests_of_every_kind() {
    let mut aged = P1;
    aged[8] = 250;
    let good = [&aged[..], &TOLD].concat();
    assert_eq!(replay(&good), (1, 1, 0, 0, 0));
    aged[8] = 251;
    assert_eq!(replay(&[&aged[..], &TOLD].concat()), (1, 0, 1, 1, 0));
    let stale = [8, 0, 1, 0x80, 10, 0, 0, 0];
    assert_eq!(replay(&[&aged[..], &stale].concat()), (1, 1, 0, 0, 0));
    // A reply in a request's place is FRAME.
    let frame = [8, 0, 1, 0x80, 9, 0, 0, 0];
    let trace = [TOLD.as_slice(), &frame].concat();
    assert_eq!(replay(&trace), (1, 1, 0, 0, 0));
}

/// What the recorder knows is what a replay counts.
#[test]
fn the_recorder_knows() {
    for seed in 0..40 {
        let mut recorder = Recorder::new(seed);
        let mut tape = recorder.tape(50, 8);
        assert_eq!(replay(&tape.bytes), tape.five());
        let whole = tape.bytes.len();
        recorder.tear(&mut tape);
        let rest = (tape.bytes.len() - whole) as u64;
        assert!(rest > 0);
        let (calls, _, _, _, torn) = tape.five();
        assert_eq!((calls, torn), (50, rest));
        assert_eq!(replay(&tape.bytes), tape.five());
    }
    assert_eq!(Recorder::new(1).tape(0, 8).five(), (0, 0, 0, 0, 0));
    let (calls, same, ..) = Recorder::new(1).tape(200, 0).five();
    assert_eq!((calls, same), (200, 200));
    let (calls, same, differ, first, _) = Recorder::new(1).tape(200, 1).five();
    assert_eq!((calls, same, differ, first), (200, 0, 200, 1));
}

#[test]
fn traces_are_what_they_say() {
    let mut traces = Traces::new(7);
    let mut kinds: BTreeMap<String, u32> = BTreeMap::new();
    for _ in 0..8000 {
        let trace = traces.draw();
        let five = replay(&trace.bytes);
        if let Some(expect) = trace.expect {
            assert_eq!(five, expect, "{}: {:?}", trace.kind, trace.bytes);
        }
        let (calls, same, differ, first, rest) = five;
        assert_eq!(calls, same + differ);
        assert_eq!(first == 0, differ == 0);
        assert!(first <= calls && rest <= trace.bytes.len() as u64);
        *kinds.entry(trace.kind).or_default() += 1;
    }
    assert!(kinds.values().all(|&times| times > 10), "{kinds:?}");
    for length in [7, 8, 128, 129] {
        for what in ["request", "reply"] {
            assert!(kinds.contains_key(&format!("{what} of {length} bytes")));
        }
    }
    assert_eq!(kinds.len(), 40);
}

/// The cuts go through every place of a trace, from none to all its bytes.
#[test]
fn every_cut_comes() {
    let mut traces = Traces::new(8);
    let mut cuts = (0..20_000)
        .map(|_| traces.draw())
        .filter(|trace| trace.kind == "cut")
        .map(|trace| trace.bytes);
    let mut before = cuts.next().unwrap();
    assert!(before.is_empty());
    let mut wholes = 0;
    for cut in cuts {
        if cut.is_empty() {
            let (_, _, _, _, rest) = replay(&before);
            assert_eq!(rest, 0);
            wholes += 1;
        } else {
            assert_eq!(cut[..cut.len() - 1], before);
        }
        before = cut;
    }
    assert!(wholes > 5);
}

#[test]
fn the_same_seed_gives_the_same_traces() {
    let draw = |seed| {
        let mut traces = Traces::new(seed);
        (0..200).map(|_| traces.draw().bytes).collect::<Vec<_>>()
    };
    assert_eq!(draw(11), draw(11));
    assert_ne!(draw(11), draw(12));
}

#[test]
fn the_replay_agrees_with_itself() {
    let tally = replays(1, 2000, replay).unwrap();
    assert_eq!(tally.all(), 2000);
    assert_eq!(tally.calls, tally.same + tally.differ);
    assert!(tally.differ > 500 && tally.torn > 500);
    assert!(replays_agree(2, 100, replay));
}

/// A replay that takes lengths from `least` to `most` and compares only the
/// first `bytes` of each reply; also the start of the record that ends it.
fn replay_as(trace: &[u8], least: usize, most: usize, bytes: usize) -> (Five, usize) {
    let (mut at, mut calls, mut same, mut first) = (0, 0, 0, 0);
    let next = |at: usize| {
        let length = usize::from(u16::from_le_bytes([*trace.get(at)?, *trace.get(at + 1)?]));
        let end = at + length;
        ((least..=most).contains(&length) && end <= trace.len()).then_some(end)
    };
    loop {
        let Some(middle) = next(at) else {
            return ((calls, same, calls - same, first, rest(trace, at)), at);
        };
        let Some(end) = next(middle) else {
            return ((calls, same, calls - same, first, rest(trace, at)), middle);
        };
        let (own, reply) = (told(&trace[at..middle]), &trace[middle..end]);
        calls += 1;
        let seen = |reply: &[u8]| reply[..reply.len().min(bytes)].to_vec();
        if seen(&own) == seen(reply) {
            same += 1;
        } else if first == 0 {
            first = calls;
        }
        at = end;
    }
}

fn rest(trace: &[u8], at: usize) -> u64 {
    (trace.len() - at) as u64
}

#[test]
fn wrong_replays_are_found() {
    let right = |trace: &[u8]| replay_as(trace, 8, 128, usize::MAX).0;
    assert!(replays(3, 4000, right).is_ok());
    let wrong = |other: &dyn Fn(&[u8]) -> Five| {
        let difference = replays(3, 4000, other).unwrap_err();
        assert!(difference.to_string().contains("other replay: calls"));
    };
    // Other bounds of a record's length.
    wrong(&|trace| replay_as(trace, 7, 128, usize::MAX).0);
    wrong(&|trace| replay_as(trace, 9, 128, usize::MAX).0);
    wrong(&|trace| replay_as(trace, 8, 127, usize::MAX).0);
    wrong(&|trace| replay_as(trace, 8, 129, usize::MAX).0);
    // Only the head of a reply is compared.
    wrong(&|trace| replay_as(trace, 8, 128, 8).0);
    // The rest is counted from the record that ends the reading.
    wrong(&|trace| {
        let ((calls, same, differ, first, _), at) = replay_as(trace, 8, 128, usize::MAX);
        (calls, same, differ, first, rest(trace, at))
    });
    // The first is counted from 0, or is the last.
    wrong(&|trace| {
        let (calls, same, differ, first, rest) = replay(trace);
        (calls, same, differ, first.saturating_sub(1), rest)
    });
    wrong(&|trace| {
        let (calls, same, differ, _, rest) = replay(trace);
        (calls, same, differ, differ, rest)
    });
}
