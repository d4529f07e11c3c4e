//! The shape of a request: its form and its degrees.

use crate::binomial::binomial;
use crate::quantity::SCALE;

/// The three forms of a surface.
#[derive(Clone, Copy, Debug, PartialEq, Eq)]
pub enum Form {
    /// Form 1: one degree m, a path point is u.
    Curve,
    /// Form 2: degrees (l, m), a path point is u, v.
    Tensor,
    /// Form 3: one degree n, a path point is x, y, z.
    Triangle,
}

impl Form {
    /// The form with this number.
    pub fn from_number(number: u32) -> Option<Self> {
        match number {
            1 => Some(Form::Curve),
            2 => Some(Form::Tensor),
            3 => Some(Form::Triangle),
            _ => None,
        }
    }

    /// The number of this form.
    pub fn number(self) -> u32 {
        match self {
            Form::Curve => 1,
            Form::Tensor => 2,
            Form::Triangle => 3,
        }
    }

    /// How many numbers one path point has.
    pub fn numbers_per_point(self) -> usize {
        match self {
            Form::Curve => 1,
            Form::Tensor => 2,
            Form::Triangle => 3,
        }
    }
}

/// Form, degrees and N. Only shapes within the limits are accepted.
#[derive(Clone, Copy, Debug, PartialEq, Eq)]
pub struct Shape {
    pub form: Form,
    /// m, l or n.
    pub first: usize,
    /// m in form 2, otherwise 0.
    pub second: usize,
    /// N, the degree of the path.
    pub path_degree: usize,
}

impl Shape {
    /// r, the number of arguments.
    pub fn arguments(&self) -> usize {
        self.first + self.second
    }

    /// L = r·N, the degree of the composed curve.
    pub fn length(&self) -> usize {
        self.arguments() * self.path_degree
    }

    /// How many control values the surface has.
    pub fn control_count(&self) -> usize {
        match self.form {
            Form::Curve => self.first + 1,
            Form::Tensor => (self.first + 1) * (self.second + 1),
            Form::Triangle => (self.first + 1) * (self.first + 2) / 2,
        }
    }

    /// How many path numbers the path has.
    pub fn path_count(&self) -> usize {
        self.form.numbers_per_point() * (self.path_degree + 1)
    }

    /// 1024^r, by which every blossom value is scaled.
    pub fn scale(&self) -> i128 {
        i128::from(SCALE).pow(self.arguments() as u32)
    }

    /// What the numerator at `place` is divided by: binomial(L, R)·1024^r.
    pub fn divisor(&self, place: usize) -> i128 {
        binomial(self.length(), place) * self.scale()
    }
}
