//! Faults put into requests that would otherwise be accepted.

use crate::edition::TODAY;
use crate::line::{Asked, OWN_ROOM};
use crate::quantity::{REACH, SCALE};
use crate::refusal::Refusal;
use crate::request::MOST_AGE;
use crate::shape::{Form, Shape};
use crate::xorshift::Xorshift;

/// Ages at both sides of the bound and at both ends.
pub const AGES: [u16; 6] = [0, 249, 250, 251, 252, u16::MAX];

/// An age that is STALE; often near the bound.
pub fn stale(rng: &mut Xorshift) -> u16 {
    match rng.below(8) {
        0..=2 => MOST_AGE + 1,
        3 => MOST_AGE + 2,
        4 => u16::MAX,
        // 250 at most in its low byte, or in its high byte alone.
        5 => rng.pick(&[256, 506, 512, 1 << 15]),
        _ => rng.between(i32::from(MOST_AGE) + 1, i32::from(u16::MAX)) as u16,
    }
}

/// A shape just beyond the limits, its counts still small.
pub fn shape_beyond(rng: &mut Xorshift, form: Form) -> Shape {
    let most_path = TODAY.most_path_degree;
    let path_degree = rng.below(most_path + 1);
    let first = rng.below(5);
    let legal = Shape {
        form,
        first,
        second: match form {
            Form::Tensor => rng.below(5 - first),
            _ => 0,
        },
        path_degree,
    };
    match rng.below(3) {
        0 => Shape {
            path_degree: most_path + 1 + rng.below(3),
            ..legal
        },
        1 if form != Form::Tensor => Shape {
            second: 1 + rng.below(4),
            ..legal
        },
        _ => {
            let sum = 5 + rng.below(2);
            let first = match form {
                Form::Tensor => rng.below(sum + 1),
                _ => sum,
            };
            Shape {
                first,
                second: sum - first,
                ..legal
            }
        }
    }
}

/// Puts one fault into a request of this shape. Not alone, a fault is made
/// such that the others, put in before it, stay.
pub fn spoil(rng: &mut Xorshift, asked: &mut Asked, shape: &Shape, refusal: Refusal, alone: bool) {
    match refusal {
        Refusal::Kind => asked.form = rng.pick(&[0, 4, 5, 9, 257, 65537, 1 << 31, u32::MAX]),
        // The shape is beyond the limits already; let the rooms be long enough.
        Refusal::Degree => {
            if asked.rooms.is_none() && shape.length() >= OWN_ROOM {
                asked.rooms = Some((64, 64));
            }
        }
        Refusal::Stale => asked.age = stale(rng),
        Refusal::Surface => wrong_count(rng, &mut asked.surface, alone),
        Refusal::Path => wrong_count(rng, &mut asked.path, alone),
        Refusal::Room => {
            let length = shape.length();
            let short = [
                (length, 64),
                (64, length),
                (length, length),
                (0, 0),
                (0, 64),
                (64, 0),
            ];
            asked.rooms = Some(rng.pick(&short));
        }
        Refusal::Value => {
            let beyond = REACH + 1;
            let values = [beyond, -beyond, beyond, -beyond, 65536, i32::MIN, i32::MAX];
            some_places(rng, &mut asked.surface, &values);
        }
        Refusal::Parameter if alone && shape.form == Form::Triangle => {
            // Balanced, so that only one bound is broken.
            let part = rng.between(1, SCALE);
            let mut point = [-1, SCALE + 1 - part, part];
            point.rotate_left(rng.below(3));
            let at = 3 * rng.below(shape.path_degree + 1);
            asked.path[at..at + 3].copy_from_slice(&point);
        }
        Refusal::Parameter => {
            let values = [-1, SCALE + 1, -1, SCALE + 1, 65536, i32::MIN, i32::MAX];
            some_places(rng, &mut asked.path, &values);
        }
        Refusal::Balance => {
            let at = 3 * rng.below(shape.path_degree + 1);
            unbalance(rng, &mut asked.path[at..at + 3]);
        }
    }
}

/// Makes a list's count wrong.
fn wrong_count(rng: &mut Xorshift, list: &mut Vec<i32>, alone: bool) {
    if alone && rng.once_in(2) {
        list.pop();
    } else {
        list.push(0);
    }
}

/// Puts one of these values at one place of a list, or at two.
fn some_places(rng: &mut Xorshift, list: &mut [i32], values: &[i32]) {
    for _ in 0..rng.pick(&[1, 1, 2]) {
        list[rng.below(list.len())] = rng.pick(values);
    }
}

/// Makes the sum of a point other than 1024, its numbers still legal.
fn unbalance(rng: &mut Xorshift, point: &mut [i32]) {
    let at = rng.below(3);
    if rng.once_in(4) {
        point.fill(rng.pick(&[0, 341, 342, SCALE]));
    } else if point[at] == 0 || (point[at] < SCALE && rng.once_in(2)) {
        point[at] += 1;
    } else {
        point[at] -= 1;
    }
}

/// Brings a request to the good side of one refusal's bound.
pub fn touch(rng: &mut Xorshift, asked: &mut Asked, shape: &Shape, refusal: Refusal) {
    let least = shape.length() + 1;
    match refusal {
        Refusal::Kind | Refusal::Degree | Refusal::Surface | Refusal::Path => {}
        Refusal::Stale => asked.age = rng.pick(&[0, MOST_AGE - 1, MOST_AGE, MOST_AGE]),
        Refusal::Room => {
            asked.rooms = Some(rng.pick(&[(least, least), (least, 64), (64, least)]));
        }
        Refusal::Value => some_places(rng, &mut asked.surface, &[-REACH, REACH]),
        Refusal::Parameter | Refusal::Balance if shape.form == Form::Triangle => {
            let part = rng.pick(&[0, 1, 512, SCALE - 1, SCALE]);
            let mut point = [0, part, SCALE - part];
            point.rotate_left(rng.below(3));
            let at = 3 * rng.below(shape.path_degree + 1);
            asked.path[at..at + 3].copy_from_slice(&point);
        }
        Refusal::Parameter | Refusal::Balance => {
            some_places(rng, &mut asked.path, &[0, SCALE]);
        }
    }
}

/// Huge degrees: form, first, second, N. In many of them a sum, a count or
/// r·N would come out small in 32 bits or fewer.
const HUGE: [(u32, u32, u32, u32); 24] = [
    (1, u32::MAX, 0, 0),
    (1, 0, u32::MAX, 1),
    (1, 1, u32::MAX, 0),
    (1, 3, u32::MAX - 1, 2),
    (1, 256, 0, 3),
    (1, 65536, 0, 3),
    (1, 1 << 31, 0, 0),
    (1, 1, 0, u32::MAX),
    (1, 4, 0, 1 << 30),
    (1, 2, 65536, 1),
    (2, u32::MAX, 1, 0),
    (2, 1, u32::MAX, 1),
    (2, u32::MAX, 5, 2),
    (2, 1 << 31, 1 << 31, 1),
    (2, u32::MAX, u32::MAX, u32::MAX),
    (2, u32::MAX - 1, 4, 3),
    (2, 65536, 65536, 0),
    (2, 2, 2, 1 << 31),
    (3, u32::MAX, 0, 0),
    (3, u32::MAX - 1, 0, 1),
    (3, 65535, 0, 1),
    (3, 2, u32::MAX - 1, 0),
    (3, 0, 1 << 31, 0),
    (3, 1, 0, u32::MAX),
];

/// A request with huge degrees, its counts those that narrow sums would ask.
pub fn huge(rng: &mut Xorshift, turn: usize) -> Asked {
    let (form, first, second, n) = HUGE[turn % HUGE.len()];
    let control = match form {
        1 => first.wrapping_add(1),
        2 => first.wrapping_add(1).wrapping_mul(second.wrapping_add(1)),
        _ => first.wrapping_add(1).wrapping_mul(first.wrapping_add(2)) / 2,
    };
    let path = n.wrapping_add(1).wrapping_mul(form);
    let path_number = rng.between(0, SCALE);
    let control_value = rng.between(-REACH, REACH);
    Asked {
        form,
        first,
        second,
        n,
        age: rng.pick(&AGES),
        surface: vec![control_value; control.min(64) as usize],
        path: vec![path_number; path.min(64) as usize],
        rooms: rng.pick(&[None, None, Some((64, 64)), Some((0, 0))]),
    }
}
