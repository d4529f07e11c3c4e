//! Port and starboard mirror: all control values negated, all points negated.

use second::door::{door, ROOM};
use second::line::{read, Asked, EXACT_FILL, POINT_FILL};
use second::record;
use second::sample::{Expect, Sampler};

/// Asks a request and its mirror: the same answer, numerators and points
/// negated, and every place beyond them left as it was.
fn mirror(asked: &Asked, other: &Asked) {
    let (reply, mirror) = (asked.reply(), other.reply());
    assert_eq!(mirror.answer, reply.answer);
    let count = reply.answer.count as usize;
    for (at, (&one, &two)) in reply.exact.iter().zip(&mirror.exact).enumerate() {
        let stays = at >= count && one == EXACT_FILL && two == EXACT_FILL;
        assert!(stays || (at < count && two == -one));
    }
    for (at, (&one, &two)) in reply.points.iter().zip(&mirror.points).enumerate() {
        let stays = at >= count && one == POINT_FILL && two == POINT_FILL;
        assert!(stays || (at < count && two == -one));
    }
}

/// Whether an exact point of an accepted request lies just between two whole
/// numbers.
fn between(asked: &Asked) -> bool {
    let reply = asked.reply();
    let exact = &reply.exact[..reply.answer.count as usize];
    let r = asked.first + asked.second;
    let half = |at: usize, numerator: i128| {
        let ways = second::binomial::binomial(exact.len() - 1, at);
        let twice = 2 * numerator;
        let divisor = ways << (10 * r);
        twice % divisor == 0 && twice / divisor % 2 != 0
    };
    exact
        .iter()
        .enumerate()
        .any(|(at, &numerator)| half(at, numerator))
}

#[test]
fn p3_and_p4() {
    let p3 = read(b"1 2 0 1 3 2 3 -2 2 0 512").unwrap();
    let p4 = read(b"1 2 0 1 3 -2 -3 2 2 0 512").unwrap();
    assert_eq!(p3.mirrored(), p4);
    assert_eq!(p4.mirrored(), p3);
    mirror(&p3, &p4);
    assert!(between(&p3));
    assert_eq!(p3.reply().points, [2, 3, 2]);
    assert_eq!(p4.reply().points, [-2, -3, -2]);
    let p9 = read(b"3 1 0 0 3 10 20 30 3 512 256 256").unwrap();
    assert_eq!(p9.reply().points, [23]);
    assert_eq!(p9.mirrored().reply().points, [-23]);
}

/// Each accepted request of the samples is followed by its mirror, and only
/// those are.
#[test]
fn every_accepted_request_comes_mirrored() {
    let mut sampler = Sampler::new(21);
    let (mut accepted, mut halves) = (0, 0);
    for _ in 0..14_000 {
        let sample = sampler.draw();
        assert!(!sample.kind.starts_with("mirror"));
        if sample.expect != Expect::Number(0) {
            continue;
        }
        let other = sampler.draw();
        assert_eq!(other.kind, format!("mirror of {}", sample.kind));
        assert_eq!(other.expect, sample.expect);
        let (asked, other) = (read(&sample.line).unwrap(), read(&other.line).unwrap());
        assert_eq!(other, asked.mirrored());
        mirror(&asked, &other);
        halves += u32::from(between(&asked));
        accepted += 1;
    }
    assert!(accepted > 5000 && halves > 500, "{accepted} {halves}");
}

/// Refused or not: the mirror is answered the same.
#[test]
fn every_readable_request_mirrors() {
    let mut sampler = Sampler::new(22);
    for _ in 0..12_000 {
        if let Ok(asked) = read(&sampler.draw().line) {
            mirror(&asked, &asked.mirrored());
        }
    }
}

#[test]
fn the_door_mirrors() {
    let mut sampler = Sampler::new(23);
    for _ in 0..6000 {
        let sample = sampler.draw();
        if sample.expect != Expect::Number(0) {
            continue;
        }
        let asked = read(&sample.line).unwrap();
        let [(one, count), (two, same)] = [&asked, &asked.mirrored()].map(|asked| {
            let mut reply = [0; ROOM];
            let count = door(&record::aged(asked), &mut reply);
            (reply, count)
        });
        assert_eq!(same, count);
        assert_eq!(two[..8], one[..8]);
        for at in (8..count).step_by(2) {
            let point = |reply: &[u8]| i16::from_le_bytes([reply[at], reply[at + 1]]);
            assert_eq!(point(&two), -point(&one));
        }
    }
}
