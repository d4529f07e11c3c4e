//! Requests that are accepted.

use crate::edition::Edition;
use crate::line::{Asked, MOST};
use crate::quantity::{REACH, SCALE};
use crate::request::{MOST_AGE, MOST_ARGUMENTS};
use crate::shape::{Form, Shape};
use crate::xorshift::Xorshift;

/// All legal shapes, a hundred with N up to 3.
pub fn legal_shapes(edition: &Edition) -> Vec<Shape> {
    let (most, most_path) = (MOST_ARGUMENTS as usize, edition.most_path_degree);
    let mut shapes = Vec::new();
    for form in [Form::Curve, Form::Tensor, Form::Triangle] {
        for first in 0..=most {
            let last = if form == Form::Tensor {
                most - first
            } else {
                0
            };
            for second in 0..=last {
                for path_degree in 0..=most_path {
                    shapes.push(Shape {
                        form,
                        first,
                        second,
                        path_degree,
                    });
                }
            }
        }
    }
    shapes
}

/// A request of this shape, its counts right.
fn of(shape: &Shape, surface: Vec<i32>, path: Vec<i32>) -> Asked {
    Asked {
        form: shape.form.number(),
        first: shape.first as u32,
        second: shape.second as u32,
        n: shape.path_degree as u32,
        age: 0,
        surface,
        path,
        rooms: None,
    }
}

/// A request of this shape with legal control values and path numbers.
pub fn any(rng: &mut Xorshift, shape: &Shape) -> Asked {
    let reach = rng.pick(&[REACH, REACH, REACH, 100, 9]);
    let surface = (0..shape.control_count())
        .map(|_| rng.between(-reach, reach))
        .collect();
    let step = rng.pick(&[1, 1, 1, 64, 256]);
    of(shape, surface, path(rng, shape, step))
}

/// A path whose numbers are whole times `step`, a divisor of 1024.
fn path(rng: &mut Xorshift, shape: &Shape, step: i32) -> Vec<i32> {
    let steps = SCALE / step;
    (0..=shape.path_degree)
        .flat_map(|_| match shape.form {
            Form::Curve => vec![rng.between(0, steps)],
            Form::Tensor => vec![rng.between(0, steps), rng.between(0, steps)],
            Form::Triangle => {
                let one = rng.between(0, steps);
                let other = rng.between(0, steps - one);
                let mut point = vec![one, other, steps - one - other];
                point.rotate_left(rng.below(3));
                point
            }
        })
        .map(|number| number * step)
        .collect()
}

/// The patterns of control values that `extreme` knows.
pub const PATTERNS: [&str; 6] = [
    "all 4096",
    "all -4096",
    "alternating from 4096",
    "alternating from -4096",
    "one 4096 among -4096",
    "ends at random",
];

/// Control values at the ends of their bounds, path numbers 0 or 1024.
pub fn extreme(rng: &mut Xorshift, shape: &Shape, pattern: usize) -> Asked {
    let count = shape.control_count();
    let one = rng.below(count);
    let surface = (0..count)
        .map(|at| {
            let high = match pattern {
                0 => true,
                1 => false,
                2 => at % 2 == 0,
                3 => at % 2 == 1,
                4 => at == one,
                _ => rng.once_in(2),
            };
            if high {
                REACH
            } else {
                -REACH
            }
        })
        .collect();
    let style = rng.below(4);
    let end = |rng: &mut Xorshift, at: usize| match style {
        0 => 0,
        1 => 1,
        2 => at % 2,
        _ => rng.below(2),
    };
    let path = (0..=shape.path_degree)
        .flat_map(|at| match shape.form {
            Form::Curve => vec![end(rng, at)],
            Form::Tensor => vec![end(rng, at), end(rng, at + 1)],
            Form::Triangle => {
                let mut corner = vec![1, 0, 0];
                corner.rotate_right(if style == 3 {
                    rng.below(3)
                } else {
                    end(rng, at)
                });
                corner
            }
        })
        .map(|number| number as i32 * SCALE)
        .collect();
    of(shape, surface, path)
}

/// Small control values and path numbers in halves and quarters.
pub fn halves(rng: &mut Xorshift, shape: &Shape) -> Asked {
    let surface = (0..shape.control_count())
        .map(|_| rng.between(-5, 5))
        .collect();
    let step = rng.pick(&[512, 512, 256]);
    of(shape, surface, path(rng, shape, step))
}

/// An age that is accepted; often 0 or near the bound.
pub fn age(rng: &mut Xorshift) -> u16 {
    match rng.below(8) {
        0..=3 => 0,
        4 => MOST_AGE - 1,
        5 => MOST_AGE,
        _ => rng.below(usize::from(MOST_AGE) + 1) as u16,
    }
}

/// Rooms that are exact or longer.
pub fn long_rooms(rng: &mut Xorshift, shape: &Shape) -> (usize, usize) {
    let least = shape.length() + 1;
    let spare = MOST as usize + 1 - least;
    (least + rng.below(spare), least + rng.below(spare))
}
