//! The composed net: the sum over every choice.

use crate::binomial::binomial;
use crate::blossom::{Argument, Net};
use crate::edition::Edition;
use crate::quantity::{PathNumber, Travel};
use crate::refusal::Refused;
use crate::rounding::nearest;
use crate::shape::{Form, Shape};
use crate::Request;

/// The numerators of a request with their rounded points, or why it is
/// refused when each array has this room.
pub fn composed(
    request: &Request,
    edition: &Edition,
    room: usize,
) -> Result<Vec<(i128, i32)>, Refused> {
    let accepted = request.check(edition, room)?;
    let shape = accepted.shape;
    let rounded = |(place, numerator)| {
        let point = nearest(numerator, shape.divisor(place));
        let point = i32::try_from(point).expect("a point is at most 4096 in size");
        (numerator, point)
    };
    let numerators = numerators(&shape, &accepted.surface, &accepted.path);
    Ok(numerators.into_iter().enumerate().map(rounded).collect())
}

/// The numerators at R = 0 to L.
///
/// Over every choice of one path point number in 0..N for each of the r
/// arguments, the numerator at the sum of the numbers gains the product of
/// the binomials (N over number) times the blossom value at those points.
/// With r = 0 there is one empty choice.
pub fn numerators(shape: &Shape, surface: &[Travel], path: &[PathNumber]) -> Vec<i128> {
    let mut sums = vec![0; shape.length() + 1];
    let ways: Vec<i128> = (0..=shape.path_degree)
        .map(|number| binomial(shape.path_degree, number))
        .collect();
    let net = Net::of(shape, surface);
    each_choice(shape, path, &ways, &net, (0, 1), &mut sums);
    sums
}

/// Every choice for the arguments that a net still owes, where the numbers
/// chosen so far add to the first of `chosen` and their binomials multiply
/// to the second. The net that they made is not worked out again for each
/// choice that goes on from them.
fn each_choice(
    shape: &Shape,
    path: &[PathNumber],
    ways: &[i128],
    net: &Net,
    chosen: (usize, i128),
    sums: &mut [i128],
) {
    let turn = shape.arguments() - net.arguments();
    let (sum, product) = chosen;
    if net.arguments() == 0 {
        sums[sum] += product * net.only();
        return;
    }
    for (number, way) in ways.iter().enumerate() {
        let lower = net.lowered(argument(shape, path, turn, number));
        each_choice(shape, path, ways, &lower, (sum + number, product * way), sums);
    }
}

/// The argument at `turn` when it takes path point `number`.
///
/// In form 2 the first l arguments take only u, the m others only v.
fn argument(shape: &Shape, path: &[PathNumber], turn: usize, number: usize) -> Argument {
    match shape.form {
        Form::Curve => Argument::U(path[number]),
        Form::Tensor if turn < shape.first => Argument::U(path[2 * number]),
        Form::Tensor => Argument::V(path[2 * number + 1]),
        Form::Triangle => Argument::Xyz([0, 1, 2].map(|part| path[3 * number + part])),
    }
}

#[cfg(test)]
mod tests {
    use super::numerators;
    use crate::quantity::{PathNumber, Travel};
    use crate::shape::{Form, Shape};

    /// With every value 1 each blossom value is 1024^r, so that a numerator
    /// counts its choices with their binomials: (L over R) of them, and
    /// each choice once.
    #[test]
    fn each_choice_comes_once() {
        let shape = Shape {
            form: Form::Curve,
            first: 4,
            second: 0,
            path_degree: 3,
        };
        let ones = vec![Travel::new(1).unwrap(); 5];
        let path: Vec<PathNumber> = [0, 300, 700, 1024]
            .map(|u| PathNumber::new(u).unwrap())
            .to_vec();
        let counts = [1, 12, 66, 220, 495, 792, 924, 792, 495, 220, 66, 12, 1];
        assert_eq!(
            numerators(&shape, &ones, &path),
            counts.map(|count| count << 40)
        );
    }
}
