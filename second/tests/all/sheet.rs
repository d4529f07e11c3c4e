//! Ticket 12 (rule Daily sheet).

use second::edition::AGED;
use second::record::{settle, REPLY};
use second::sample::traces::{Recorder, Traces};
use second::sheet::{sheet, Feed, Sheet};
use second::xorshift::Xorshift;

const LONGEST: usize = AGED.longest;

/// A reply record with these four bytes and points.
fn reply(number: u8, place: u8, count: u8, points: &[i16]) -> Vec<u8> {
    let mut record = vec![0, 0, 1, 0x80, number, place, count, 0];
    record.extend(points.iter().flat_map(|point| point.to_le_bytes()));
    settle(&mut record);
    record
}

/// The sheet of these replies, each after some request.
fn of(replies: &[Vec<u8>]) -> Sheet {
    let request = [8, 0, 1, 0, 0, 0, 0, 0];
    let pairs: Vec<u8> = replies
        .iter()
        .flat_map(|reply| [&request[..], reply].concat())
        .collect();
    sheet(LONGEST, &pairs)
}

/// What adding this reply alone does: is it odd, or which number is counted?
fn counted(reply: Vec<u8>) -> Option<usize> {
    let told = of(&[reply]);
    let all = told.odd + told.refusals.iter().sum::<u64>();
    assert_eq!(all, 1);
    told.refusals.iter().position(|&count| count == 1)
}

#[test]
fn an_empty_trace_gives_fourteen_lines() {
    let lines = "odd 0\nrefusal 0 0\nrefusal 1 0\nrefusal 2 0\nrefusal 3 0\nrefusal 4 0\n\
                 refusal 5 0\nrefusal 6 0\nrefusal 7 0\nrefusal 8 0\nrefusal 9 0\nrefusal 10 0\n\
                 least none\nmost none\n";
    assert_eq!(sheet(LONGEST, &[]).lines(), lines);
    assert_eq!(Feed::new(LONGEST).sheet().lines(), lines);
    assert_eq!(lines.lines().count(), 14);
}

#[test]
fn a_small_day() {
    let day = of(&[
        reply(0, 0, 2, &[0, 100]),
        reply(10, 0, 0, &[]),
        reply(0, 0, 3, &[-5, 7, -4096]),
        reply(6, 2, 0, &[]),
        reply(11, 0, 0, &[]),
        reply(10, 0, 0, &[]),
    ]);
    let lines = "odd 1\nrefusal 0 2\nrefusal 1 0\nrefusal 2 0\nrefusal 3 0\nrefusal 4 0\n\
                 refusal 5 0\nrefusal 6 1\nrefusal 7 0\nrefusal 8 0\nrefusal 9 0\nrefusal 10 2\n\
                 least -4096\nmost 100\n";
    assert_eq!(day.lines(), lines);
}

#[test]
fn what_is_odd() {
    for number in 0..=10 {
        let told = counted(reply(number, 9, 0, &[]));
        assert_eq!(told, Some(usize::from(number)));
    }
    for number in 11..=255 {
        assert_eq!(counted(reply(number, 0, 0, &[])), None);
    }
    // The count and the length must agree.
    for count in [0, 1, 25, 60] {
        let points = vec![1; usize::from(count)];
        assert_eq!(counted(reply(0, 0, count, &points)), Some(0));
        assert_eq!(counted(reply(0, 0, count + 1, &points)), None);
        let told = counted(reply(10, 0, count, &points));
        assert_eq!(told, (count == 0).then_some(10));
        assert_eq!(counted(reply(10, 0, 0, &points)), told);
        let mut longer = reply(0, 0, count, &points);
        longer.push(0);
        if longer.len() <= LONGEST {
            settle(&mut longer);
            assert_eq!(counted(longer), None);
        }
    }
    // Another kind, in either of its bytes.
    let good = reply(0, 0, 1, &[3]);
    for (at, byte) in [(2, 2), (2, 0), (3, 0), (3, 0x81)] {
        let mut other = good.clone();
        other[at] = byte;
        assert_eq!(counted(other), None);
    }
    assert_eq!(REPLY, 0x8001);
    // The byte after the count is not looked at.
    let mut last = good;
    last[7] = 255;
    assert_eq!(counted(last), Some(0));
}

#[test]
fn least_and_most() {
    let span = |replies: &[Vec<u8>]| of(replies).span;
    assert_eq!(span(&[reply(0, 0, 0, &[])]), None);
    assert_eq!(span(&[reply(0, 0, 1, &[5])]), Some((5, 5)));
    assert_eq!(span(&[reply(0, 0, 1, &[-5])]), Some((-5, -5)));
    let ends = reply(0, 0, 2, &[i16::MIN, i16::MAX]);
    assert_eq!(span(&[ends]), Some((-32_768, 32_767)));
    let odd = reply(0, 0, 3, &[i16::MIN, i16::MAX]);
    assert_eq!(span(&[odd, reply(0, 0, 1, &[9])]), Some((9, 9)));
    let refused = reply(3, 0, 1, &[i16::MAX]);
    assert_eq!(span(&[refused]), None);
}

/// A cut pair adds nothing, and nothing comes after the end.
#[test]
fn the_end() {
    let pair = [&[8, 0, 1, 0, 0, 0, 0, 0][..], &reply(0, 0, 1, &[4])].concat();
    for count in 0..=2 * pair.len() {
        let told = sheet(LONGEST, &pair.repeat(2)[..count]);
        assert_eq!(told.refusals[0], (count / pair.len()) as u64);
        assert_eq!(told.odd, 0);
    }
    for length in [0, 7, 129] {
        let mut feed = Feed::new(LONGEST);
        feed.take(&pair);
        feed.take(&[length]);
        feed.take(&[]);
        feed.take(&[0]);
        for _ in 0..300 {
            feed.take(&pair);
        }
        assert_eq!(feed.sheet().refusals[0], 1);
    }
    let mut feed = Feed::new(126);
    feed.take(&[127, 0]);
    feed.take(&vec![0; 1000]);
    assert_eq!(feed.sheet(), &Sheet::default());
}

/// Cut anywhere, with parts of no byte, the sheet after each part is that of
/// what has come.
#[test]
fn fed_as_it_comes() {
    let mut rng = Xorshift::new(121);
    let mut traces = Traces::new(122);
    for _ in 0..3000 {
        let trace = traces.draw().bytes;
        let mut feed = Feed::new(LONGEST);
        let mut at = 0;
        while at < trace.len() {
            let most = rng.pick(&[1, 3, 40, 400]);
            let part = rng.below(most + 1).min(trace.len() - at);
            feed.take(&trace[at..at + part]);
            at += part;
            if trace.len() < 2000 {
                assert_eq!(*feed.sheet(), sheet(LONGEST, &trace[..at]));
            }
        }
        assert_eq!(*feed.sheet(), sheet(LONGEST, &trace));
    }
}

/// Every reply of a recorder that makes no mistake is counted once.
#[test]
fn all_replies_are_counted() {
    let tape = Recorder::new(123).tape(500, 0);
    let told = sheet(LONGEST, &tape.bytes);
    assert_eq!((told.odd, told.refusals.iter().sum::<u64>()), (0, 500));
    assert!(told.refusals[0] > 50 && told.refusals[10] > 5);
}
