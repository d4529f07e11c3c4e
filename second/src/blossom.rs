//! The blossom, scaled: one argument makes a net one degree lower.

use crate::quantity::{PathNumber, Travel, SCALE};
use crate::shape::{Form, Shape};

/// One argument of a blossom.
#[derive(Clone, Copy, Debug)]
pub enum Argument {
    /// The u of a path point (forms 1 and 2).
    U(PathNumber),
    /// The v of a path point (form 2).
    V(PathNumber),
    /// x, y, z of a path point (form 3).
    Xyz([PathNumber; 3]),
}

/// The most numbers that a net has: a triangle of degree 4.
const MOST: usize = 15;

/// A net: its form, the degrees left, and its numbers.
///
/// A curve is held like a tensor net of second degree 0.
#[derive(Clone, Copy, Debug)]
pub struct Net {
    form: Form,
    first: usize,
    second: usize,
    values: [i64; MOST],
}

impl Net {
    /// The net of a surface.
    pub fn of(shape: &Shape, surface: &[Travel]) -> Self {
        let mut values = [0; MOST];
        for (value, travel) in values.iter_mut().zip(surface) {
            *value = travel.wide();
        }
        Net {
            form: shape.form,
            first: shape.first,
            second: shape.second,
            values,
        }
    }

    /// Where the number at (i, j) stands.
    fn index(&self, i: usize, j: usize) -> usize {
        match self.form {
            Form::Curve | Form::Tensor => i * (self.second + 1) + j,
            // The rows before i have n+1, n, … n+2−i numbers.
            Form::Triangle => (0..i).map(|row| self.first + 1 - row).sum::<usize>() + j,
        }
    }

    /// The number at (i, j).
    fn at(&self, i: usize, j: usize) -> i64 {
        self.values[self.index(i, j)]
    }

    /// The net one degree lower that one argument makes.
    pub fn lowered(&self, argument: Argument) -> Self {
        match argument {
            Argument::U(u) => self.along_u(u),
            Argument::V(v) => self.along_v(v),
            Argument::Xyz(xyz) => self.across(xyz),
        }
    }

    /// (1024 − u)·p(i, j) + u·p(i+1, j).
    fn along_u(&self, u: PathNumber) -> Self {
        let mut lower = Net {
            first: self.first - 1,
            values: [0; MOST],
            ..*self
        };
        let (far, near) = (u.wide(), i64::from(SCALE) - u.wide());
        for i in 0..=lower.first {
            for j in 0..=lower.second {
                lower.values[lower.index(i, j)] = near * self.at(i, j) + far * self.at(i + 1, j);
            }
        }
        lower
    }

    /// (1024 − v)·p(i, j) + v·p(i, j+1).
    fn along_v(&self, v: PathNumber) -> Self {
        let mut lower = Net {
            second: self.second - 1,
            values: [0; MOST],
            ..*self
        };
        let (far, near) = (v.wide(), i64::from(SCALE) - v.wide());
        for i in 0..=lower.first {
            for j in 0..=lower.second {
                lower.values[lower.index(i, j)] = near * self.at(i, j) + far * self.at(i, j + 1);
            }
        }
        lower
    }

    /// x·p(i+1, j, k) + y·p(i, j+1, k) + z·p(i, j, k+1).
    fn across(&self, [x, y, z]: [PathNumber; 3]) -> Self {
        let mut lower = Net {
            first: self.first - 1,
            values: [0; MOST],
            ..*self
        };
        for i in 0..=lower.first {
            for j in 0..=lower.first - i {
                lower.values[lower.index(i, j)] = x.wide() * self.at(i + 1, j)
                    + y.wide() * self.at(i, j + 1)
                    + z.wide() * self.at(i, j);
            }
        }
        lower
    }

    /// How many arguments it still owes.
    pub fn arguments(&self) -> usize {
        self.first + self.second
    }

    /// The one number of a net of degree 0.
    pub fn only(&self) -> i128 {
        assert_eq!(self.arguments(), 0, "arguments are still owed");
        i128::from(self.values[0])
    }
}

/// The blossom value of a net times 1024^r: all r arguments, one at a time.
pub fn blossom(net: Net, arguments: impl IntoIterator<Item = Argument>) -> i128 {
    arguments
        .into_iter()
        .fold(net, |net, argument| net.lowered(argument))
        .only()
}

#[cfg(test)]
mod tests {
    use super::*;

    fn travels(values: &[i32]) -> Vec<Travel> {
        values.iter().map(|&v| Travel::new(v).unwrap()).collect()
    }

    fn number(value: i32) -> PathNumber {
        PathNumber::new(value).unwrap()
    }

    fn shape(form: Form, first: usize, second: usize) -> Shape {
        Shape {
            form,
            first,
            second,
            path_degree: 0,
        }
    }

    #[test]
    fn the_triangle_is_stored_in_loop_order() {
        let shape = shape(Form::Triangle, 2, 0);
        let net = Net::of(&shape, &travels(&[1, 2, 3, 4, 5, 6]));
        let order = [(0, 0), (0, 1), (0, 2), (1, 0), (1, 1), (2, 0)];
        for (at, (i, j)) in order.into_iter().enumerate() {
            assert_eq!(net.index(i, j), at);
        }
    }

    #[test]
    fn corners_of_a_triangle_are_its_corner_values() {
        // (0,0,2) goes with z, (0,2,0) with y, (2,0,0) with x.
        let shape = shape(Form::Triangle, 2, 0);
        let net = Net::of(&shape, &travels(&[1, 2, 3, 4, 5, 6]));
        let corner = |x, y, z| Argument::Xyz([number(x), number(y), number(z)]);
        let (x, y, z) = (corner(1024, 0, 0), corner(0, 1024, 0), corner(0, 0, 1024));
        let m = 1024 * 1024;
        assert_eq!(blossom(net, [z, z]), m);
        assert_eq!(blossom(net, [z, y]), 2 * m);
        assert_eq!(blossom(net, [y, y]), 3 * m);
        assert_eq!(blossom(net, [x, z]), 4 * m);
        assert_eq!(blossom(net, [y, x]), 5 * m);
        assert_eq!(blossom(net, [x, x]), 6 * m);
    }

    #[test]
    fn corners_of_a_tensor_net_are_its_values() {
        let shape = shape(Form::Tensor, 1, 2);
        let net = Net::of(&shape, &travels(&[1, 2, 3, 4, 5, 6]));
        for i in 0..=1 {
            for j in 0..=2 {
                let u = Argument::U(number(1024 * i));
                let v = [1, 2].map(|step| Argument::V(number(if j >= step { 1024 } else { 0 })));
                let value = blossom(net, [u, v[0], v[1]]);
                assert_eq!(value, i128::from(1 + 3 * i + j) << 30);
            }
        }
    }

    #[test]
    fn the_order_within_a_group_does_not_matter() {
        let curve = Net::of(&shape(Form::Curve, 3, 0), &travels(&[5, -70, 900, 4096]));
        let [a, b, c] = [17, 400, 1023].map(|u| Argument::U(number(u)));
        let value = blossom(curve, [a, b, c]);
        for order in [[a, c, b], [b, a, c], [b, c, a], [c, a, b], [c, b, a]] {
            assert_eq!(blossom(curve, order), value);
        }
        let tensor = Net::of(
            &shape(Form::Tensor, 1, 2),
            &travels(&[5, -70, 900, 4, 33, 1]),
        );
        let [v, w] = [91, 1000].map(|v| Argument::V(number(v)));
        let value = blossom(tensor, [a, v, w]);
        for order in [[a, w, v], [v, a, w], [v, w, a], [w, v, a], [w, a, v]] {
            assert_eq!(blossom(tensor, order), value);
        }
    }
}
