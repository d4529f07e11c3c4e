//! Demand 3 as exact fractions, at moments k/q with q from 1 to 16, or to 8
//! where L is above 12.
//!
//! The bound: a reading is at most 2^52·q^L in size (see `ride`), which is
//! 2^100 for q = 16 and L = 12, and 2^124 for q = 8 and L = 24, so twice a
//! difference is below 2^126 and fits 128 bits.

use second::edition::TODAY;
use second::request::Accepted;
use second::sample::{Expect, Sampler};
use second::xorshift::Xorshift;
use second::{line, ride, Request};

/// The accepted rides of a seed, with their answers.
fn rides(seed: u64, draws: usize) -> impl Iterator<Item = (Accepted, line::Reply)> {
    let mut sampler = Sampler::new(seed);
    (0..draws).filter_map(move |_| {
        let sample = sampler.draw();
        if sample.expect != Expect::Number(0) {
            return None;
        }
        let mut asked = line::read(&sample.line).expect("an accepted line is readable");
        asked.rooms = None;
        let reply = asked.reply();
        let request = Request {
            form: asked.form,
            first: asked.first,
            second: asked.second,
            n: asked.n,
            age: asked.age,
            surface: &asked.surface,
            path: &asked.path,
        };
        let accepted = request
            .check(&TODAY, TODAY.most_points())
            .expect("the ride is accepted");
        Some((accepted, reply))
    })
}

/// The greatest q whose readings fit.
fn finest(ride: &Accepted) -> i128 {
    if ride.shape.length() > 12 {
        8
    } else {
        16
    }
}

/// Compares the three readings of one ride at k/q.
fn compare(ride: &Accepted, reply: &line::Reply, k: i128, q: i128) {
    let shape = &ride.shape;
    let surface = ride::surface(shape, &ride.surface, &ride.path, k, q);
    // The exact curve is the surface at the path's place.
    assert_eq!(ride::exact(&reply.exact, k, q), surface);
    // The drawn curve is within half a unit of it.
    let unit = shape.scale() * q.pow(shape.length() as u32);
    let drawn = ride::drawn(&reply.points, k, q) * shape.scale();
    assert!(2 * (drawn - surface).abs() <= unit);
}

#[test]
fn at_random_moments() {
    let mut rng = Xorshift::new(3);
    let mut count = 0;
    for (ride, reply) in rides(1, 6000) {
        for _ in 0..4 {
            let q = rng.between(1, finest(&ride) as i32);
            let k = rng.between(0, q);
            compare(&ride, &reply, i128::from(k), i128::from(q));
        }
        count += 1;
    }
    assert!(count > 3000);
}

/// A curve of degree L is fixed by its values at L+1 moments: at all of the
/// seventeen moments k/16 this settles every numerator where L is at most 12,
/// and at the 23 moments that are fifths to eighths where L is at most 22.
#[test]
fn at_many_moments() {
    for (ride, reply) in rides(2, 2500) {
        let all = match finest(&ride) {
            16 => 16..=16,
            _ => 5..=8,
        };
        for q in all {
            for k in 0..=q {
                compare(&ride, &reply, k, q);
            }
        }
    }
}

/// Numerators are at most binomial(L, R)·2^(12+10r) in size, and each point
/// is the one whole number p within 1/2 of the exact point that is beyond it,
/// seen from zero, when it is just 1/2 away.
#[test]
fn numerators_and_points_keep_their_bounds() {
    for (ride, reply) in rides(3, 6000) {
        for (at, (&numerator, &point)) in reply.exact.iter().zip(&reply.points).enumerate() {
            let divisor = ride.shape.divisor(at);
            let point = i128::from(point);
            assert!(numerator.abs() <= 4096 * divisor);
            let off = (2 * point * divisor - 2 * numerator).abs();
            let beyond = point.abs() * divisor > numerator.abs();
            assert!(off < divisor || (off == divisor && beyond));
        }
    }
}
