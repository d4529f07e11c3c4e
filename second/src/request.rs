//! A request and its check.

use crate::edition::Edition;
use crate::quantity::{PathNumber, Travel, SCALE};
use crate::refusal::{Refusal, Refused};
use crate::shape::{Form, Shape};

/// The largest r.
pub const MOST_ARGUMENTS: u64 = 4;

/// The largest age of a tilt sample, in milliseconds.
pub const MOST_AGE: u16 = 250;

/// One request as it comes, unchecked.
#[derive(Clone, Copy, Debug)]
pub struct Request<'a> {
    pub form: u32,
    pub first: u32,
    pub second: u32,
    pub n: u32,
    /// The age of the tilt sample, in milliseconds.
    pub age: u16,
    pub surface: &'a [i32],
    pub path: &'a [i32],
}

/// What is left of a request once no refusal applies.
#[derive(Clone, Debug)]
pub struct Accepted {
    pub shape: Shape,
    pub surface: Vec<Travel>,
    pub path: Vec<PathNumber>,
}

impl Request<'_> {
    /// The shape, unless KIND, DEGREE or STALE comes before; the arrays do
    /// not matter yet.
    pub fn shape(&self, edition: &Edition) -> Result<Shape, Refused> {
        let form = Form::from_number(self.form).ok_or(Refusal::Kind.at(0))?;
        let most = edition.most_path_degree as u64;
        let shape = self.degrees(form, most).ok_or(Refusal::Degree.at(0))?;
        if self.age > MOST_AGE {
            return Err(Refusal::Stale.at(0));
        }
        Ok(shape)
    }

    /// Tests the nine refusals in their order, with this room in each array.
    pub fn check(&self, edition: &Edition, room: usize) -> Result<Accepted, Refused> {
        let shape = self.shape(edition)?;
        if self.surface.len() != shape.control_count() {
            return Err(Refusal::Surface.at(0));
        }
        if self.path.len() != shape.path_count() {
            return Err(Refusal::Path.at(0));
        }
        if room < shape.length() + 1 {
            return Err(Refusal::Room.at(0));
        }
        let surface = each(self.surface, Travel::new).map_err(|at| Refusal::Value.at(at))?;
        let path = each(self.path, PathNumber::new).map_err(|at| Refusal::Parameter.at(at))?;
        if shape.form == Form::Triangle {
            let unbalanced = |point: &[i32]| point.iter().sum::<i32>() != SCALE;
            if let Some(at) = self.path.chunks(3).position(unbalanced) {
                return Err(Refusal::Balance.at(at));
            }
        }
        Ok(Accepted {
            shape,
            surface,
            path,
        })
    }

    /// The shape, if the degrees keep their limits. The sum is taken in 64
    /// bits, so that no two degrees wrap.
    fn degrees(&self, form: Form, most_path_degree: u64) -> Option<Shape> {
        let arguments = u64::from(self.first) + u64::from(self.second);
        let legal = arguments <= MOST_ARGUMENTS
            && u64::from(self.n) <= most_path_degree
            && (form == Form::Tensor || self.second == 0);
        legal.then_some(Shape {
            form,
            first: self.first as usize,
            second: self.second as usize,
            path_degree: self.n as usize,
        })
    }
}

/// Every value made into its kind, or the least index of one that cannot be.
fn each<T>(values: &[i32], make: impl Fn(i32) -> Option<T>) -> Result<Vec<T>, usize> {
    values
        .iter()
        .enumerate()
        .map(|(at, &value)| make(value).ok_or(at))
        .collect()
}
