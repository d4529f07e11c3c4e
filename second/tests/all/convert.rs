//! Ticket 10 (rule Old traces): no age means old, and the converter.

use second::convert::{convert, line};
use second::door::door_of;
use second::edition::{Edition, AGED, LONG, SHORT};
use second::record::settle;
use second::replay::{lines, replay_of};
use second::sample::traces::{Recorder, Traces};
use second::xorshift::Xorshift;

/// P1 without an age, P1 on a sample of age 0, and their reply.
const P1: [u8; 16] = [16, 0, 1, 0, 1, 1, 0, 1, 0, 0, 100, 0, 0, 0, 0, 4];
const P1_AGED: [u8; 18] = [18, 0, 2, 0, 1, 1, 0, 1, 0, 0, 0, 0, 100, 0, 0, 0, 0, 4];
const TOLD: [u8; 12] = [12, 0, 1, 0x80, 0, 0, 2, 0, 0, 0, 100, 0];
const STALE: [u8; 8] = [8, 0, 1, 0x80, 10, 0, 0, 0];

fn told(edition: &Edition, request: &[u8]) -> Vec<u8> {
    let mut reply = [0; 58];
    let count = door_of(edition, request, &mut reply);
    reply[..count].to_vec()
}

/// The number that a request is told under the new rule.
fn number(request: &[u8]) -> u8 {
    told(&AGED, request)[4]
}

#[test]
fn no_age_is_stale_in_its_place() {
    assert_eq!(told(&LONG, &P1), TOLD);
    assert_eq!(told(&AGED, &P1), STALE);
    assert_eq!(told(&AGED, &P1_AGED), TOLD);
    let changed = |at: usize, byte: u8| {
        let mut request = P1;
        request[at] = byte;
        number(&request)
    };
    // FRAME of the head, KIND and DEGREE come before.
    assert_eq!(changed(0, 17), 9);
    assert_eq!(changed(2, 3), 9);
    assert_eq!(changed(4, 4), 1);
    assert_eq!(changed(5, 5), 2);
    assert_eq!(changed(7, 7), 2);
    // The body's FRAME, VALUE and PARAMETER come after.
    assert_eq!(changed(7, 2), 10);
    assert_eq!(changed(11, 0x7f), 10);
    assert_eq!(changed(15, 0x7f), 10);
    let mut short = P1[..14].to_vec();
    settle(&mut short);
    assert_eq!(number(&short), 10);
    assert_eq!(number(&P1[..8]), 9);
}

#[test]
fn records_of_127_and_128_are_read() {
    for length in [126, 127, 128, 129] {
        let mut record = vec![7; length];
        settle(&mut record);
        let trace = [record.clone(), told(&AGED, &record)].concat();
        let size = trace.len() as u64;
        let whole = (1, 1, 0, 0, 0);
        let none = (0, 0, 0, 0, size);
        let expected = if length <= 128 { whole } else { none };
        assert_eq!(replay_of(&AGED, &trace), expected);
        let expected = if length <= 126 { whole } else { none };
        assert_eq!(replay_of(&LONG, &trace), expected);
    }
}

#[test]
fn one_pair() {
    let converted = convert(&[&P1[..], &TOLD].concat()).unwrap();
    assert_eq!(converted.bytes, [&P1_AGED[..], &TOLD].concat());
    assert_eq!(converted.changed, 1);
    assert_eq!(line(Some(&converted)), "converted 1\n");
    assert_eq!(line(None), "not converted\n");
}

/// Only the requests of whole pairs change, and only those of kind 0x0001.
#[test]
fn all_else_is_copied() {
    let unchanged = |trace: &[u8]| {
        let converted = convert(trace).unwrap();
        assert_eq!((&converted.bytes[..], converted.changed), (trace, 0));
    };
    unchanged(&[]);
    unchanged(&P1);
    unchanged(&[&P1_AGED[..], &TOLD].concat());
    // A pair cut off, and a length that no trace holds.
    for count in 0..28 {
        unchanged(&[&P1[..], &TOLD].concat()[..count]);
    }
    for length in [0, 7, 129, 255] {
        let mut odd = TOLD;
        odd[0] = length;
        unchanged(&[&P1[..], &odd, &P1, &TOLD].concat());
        odd[0] = 12;
        odd[1] = 1;
        unchanged(&[&P1[..], &odd, &P1, &TOLD].concat());
    }
    // A reply of kind 0x0001, and a request of another kind, stay.
    let mut other = P1;
    other[2] = 3;
    unchanged(&[&other[..], &P1].concat());
    let converted = convert(&[&P1[..], &P1, &P1_AGED, &P1, &P1].concat()).unwrap();
    assert_eq!(
        converted.bytes,
        [&P1_AGED[..], &P1, &P1_AGED, &P1, &P1].concat()
    );
    assert_eq!(converted.changed, 1);
}

/// A request that is no whole one changes like any other, and is told the
/// same as before.
#[test]
fn bad_requests_too() {
    for length in 8..=126 {
        for form in [0, 1, 2, 9] {
            let mut request = vec![form; length];
            request[..4].copy_from_slice(&[length as u8, 0, 1, 0]);
            let old = told(&LONG, &request);
            let converted = convert(&[&request[..], &old].concat()).unwrap();
            let (dated, reply) = converted.bytes.split_at(length + 2);
            assert_eq!(usize::from(dated[0]), length + 2);
            assert_eq!(dated[2..10], [2, 0, form, form, form, form, 0, 0]);
            assert_eq!(dated[10..], request[8..]);
            assert_eq!(reply, old);
            assert_eq!(told(&AGED, dated), old);
        }
    }
}

/// The old reading ends at 127 or 128, in a request's or a reply's place,
/// whole or cut off.
#[test]
fn not_converted() {
    let good = [&P1[..], &TOLD].concat();
    for length in [126, 127, 128, 129] {
        let mut odd = vec![1; usize::from(length)];
        odd[..4].copy_from_slice(&[length, 0, 1, 0]);
        for before in [&[][..], &good[..]] {
            for cut in [2, 3, odd.len()] {
                let ends = [
                    [before, &odd[..cut]].concat(),
                    [before, &P1, &odd[..cut]].concat(),
                ];
                for trace in ends {
                    let refused = [127, 128].contains(&length);
                    assert_eq!(convert(&trace).is_none(), refused);
                }
            }
            // With one byte of it no length can be read.
            assert!(convert(&[before, &P1, &odd[..1]].concat()).is_some());
        }
        // Inside a whole pair the same bytes are nobody's length.
        let inside = [&good[..], &[length, 0]].concat();
        assert_eq!(convert(&inside).is_none(), [127, 128].contains(&length));
        let mut body = P1;
        body[8] = length;
        assert!(convert(&[&body[..], &TOLD].concat()).is_some());
    }
}

/// The five lines of a converted trace under the new rule are those of the
/// old trace under the old rule; the same with N up to 3.
fn check(trace: &[u8]) -> bool {
    let Some(converted) = convert(trace) else {
        return false;
    };
    let short = Edition {
        most_path_degree: 3,
        ..AGED
    };
    for (old, new) in [(SHORT, short), (LONG, AGED)] {
        let before = lines(replay_of(&old, trace));
        assert_eq!(lines(replay_of(&new, &converted.bytes)), before);
    }
    assert_eq!(
        converted.bytes.len(),
        trace.len() + 2 * converted.changed as usize
    );
    // A second conversion changes nothing.
    if let Some(twice) = convert(&converted.bytes) {
        assert_eq!((twice.bytes, twice.changed), (converted.bytes, 0));
    }
    true
}

#[test]
fn the_five_lines_stay() {
    let mut traces = Traces::of(&LONG, 101);
    let converted = (0..8000).filter(|_| check(&traces.draw().bytes)).count();
    assert!(converted > 7000 && converted < 8000);
}

/// Lengths about both bounds in every place of a trace.
#[test]
fn the_five_lines_stay_at_the_bounds() {
    let mut rng = Xorshift::new(102);
    let mut recorder = Recorder::of(&LONG, 103);
    let mut refused = 0;
    for _ in 0..6000 {
        let mut trace = Vec::new();
        for _ in 0..rng.below(5) {
            let (mut request, mut reply) = recorder.exchange();
            if rng.once_in(3) {
                let length = rng.pick(&[7, 8, 125, 126, 127, 128, 129]);
                let odd = recorder.random(length);
                match rng.below(3) {
                    0 => reply = odd,
                    1 => request = odd,
                    _ => {
                        request = odd;
                        request[2..4].copy_from_slice(&[rng.pick(&[1, 2]), 0]);
                        reply = told(&LONG, &request);
                    }
                }
            }
            trace.extend([request, reply].concat());
        }
        if rng.once_in(3) {
            trace.truncate(rng.below(trace.len() + 1));
        }
        refused += u32::from(!check(&trace));
    }
    assert!(refused > 300 && refused < 3000);
}
