//! Ticket 7 (rule Counting): how many net entries are formed when each
//! non-decreasing run of path point numbers is extended one argument at a time.

use crate::edition::Edition;
use crate::shape::{Form, Shape};
use crate::{Answer, Request};

/// What a request is told besides its answer: 0 where it is refused.
pub fn told(request: &Request, edition: &Edition, answer: &Answer) -> u64 {
    match request.shape(edition) {
        Ok(shape) if answer.number == 0 => of(&shape),
        _ => 0,
    }
}

/// The count that an accepted request reports: the entries of the tree of its
/// runs for forms 1 and 3, 0 for form 2.
pub fn of(shape: &Shape) -> u64 {
    let points = shape.path_degree + 1;
    match shape.form {
        Form::Curve => grown(shape.first, 0, points, 1),
        Form::Tensor => 0,
        Form::Triangle => grown(shape.first, 0, points, 2),
    }
}

/// The entries formed below a run that has `left` arguments to take, each one
/// of the points `from` to `points` − 1: for every way to extend the run, the
/// entries of the net one degree lower, and what grows from there.
fn grown(left: usize, from: usize, points: usize, dimension: usize) -> u64 {
    if left == 0 {
        return 0;
    }
    (from..points)
        .map(|next| net(left - 1, dimension) + grown(left - 1, next, points, dimension))
        .sum()
}

/// How many entries a net of this degree has, counted one by one: a row for
/// dimension 1, a triangle for dimension 2.
fn net(degree: usize, dimension: usize) -> u64 {
    match dimension {
        0 => 1,
        _ => (0..=degree).map(|less| net(less, dimension - 1)).sum(),
    }
}

#[cfg(test)]
mod tests {
    use super::*;
    use crate::binomial::binomial;

    #[test]
    fn nets_have_the_entries_of_their_surfaces() {
        for degree in 0..=9 {
            assert_eq!(net(degree, 1), degree as u64 + 1);
            let triangle = (degree + 1) * (degree + 2) / 2;
            assert_eq!(net(degree, 2), triangle as u64);
        }
    }

    /// Rule Counting (document 001, formula 8), also beyond the bounds of a request.
    #[test]
    fn the_tree_has_as_many_entries_as_the_formula() {
        for arguments in 0..=7 {
            for points in 0..=9 {
                for dimension in 1..=3 {
                    let formula = binomial(arguments + points + dimension, arguments)
                        - binomial(arguments + dimension, arguments);
                    let counted = grown(arguments, 0, points, dimension);
                    assert_eq!(i128::from(counted), formula);
                }
            }
        }
    }

    #[test]
    fn worked_counts() {
        let count = |form, first, second, path_degree| {
            of(&Shape {
                form,
                first,
                second,
                path_degree,
            })
        };
        // r = 3, g = 3, K = 1: 3·3 + 6·2 + 10·1.
        assert_eq!(count(Form::Curve, 3, 0, 2), 31);
        // r = 4, g = 4, K = 2: 4·10 + 10·6 + 20·3 + 35·1.
        assert_eq!(count(Form::Triangle, 4, 0, 3), 195);
        assert_eq!(count(Form::Curve, 0, 0, 3), 0);
        assert_eq!(count(Form::Triangle, 0, 0, 6), 0);
        assert_eq!(count(Form::Tensor, 2, 2, 3), 0);
        assert_eq!(count(Form::Tensor, 0, 0, 0), 0);
        // N = 6: 7·10 + 28·6 + 84·3 + 210·1, and 7·4 + 28·3 + 84·2 + 210·1.
        assert_eq!(count(Form::Triangle, 4, 0, 6), 700);
        assert_eq!(count(Form::Curve, 4, 0, 6), 490);
    }

    /// The last runs are the argument sets: 3 of 7 arguments have 84 of them.
    #[test]
    fn runs_never_go_back() {
        let leaves = |arguments, points| {
            grown(arguments, 0, points, 1)
                - (1..arguments)
                    .map(|depth| runs(depth, 0, points) * net(arguments - depth, 1))
                    .sum::<u64>()
        };
        assert_eq!(leaves(3, 7), 84);
        assert_eq!(leaves(4, 7), 210);
    }

    fn runs(length: usize, from: usize, points: usize) -> u64 {
        match length {
            0 => 1,
            _ => (from..points)
                .map(|next| runs(length - 1, next, points))
                .sum(),
        }
    }
}
