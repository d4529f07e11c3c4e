//! Reading a ride at k/q, by Bernstein's formula on whole numbers.
//!
//! Nothing here uses a blossom: these readings judge the composed net. A
//! reading is at most 2^12·1024^r·q^L in size and so are the sums on the way:
//! at most 2^100 for q up to 16 where L is at most 12, and at most 2^124 for q
//! up to 8 where L is at most 24.

use crate::binomial::binomial;
use crate::quantity::{PathNumber, Travel};
use crate::shape::{Form, Shape};

/// A power, with 0^0 = 1.
fn power(base: i128, exponent: usize) -> i128 {
    base.pow(exponent as u32)
}

/// Σ binomial(d, i)·(q−k)^(d−i)·k^i·p(i): the value at k/q times q^d.
fn bernstein(values: &[i128], k: i128, q: i128) -> i128 {
    let degree = values.len() - 1;
    values
        .iter()
        .enumerate()
        .map(|(i, value)| binomial(degree, i) * power(q - k, degree - i) * power(k, i) * value)
        .sum()
}

/// The drawn curve, through its rounded points, at k/q, times q^L.
pub fn drawn(points: &[i32], k: i128, q: i128) -> i128 {
    let values: Vec<i128> = points.iter().map(|&point| i128::from(point)).collect();
    bernstein(&values, k, q)
}

/// The exact curve at k/q, times 1024^r·q^L.
///
/// A numerator already holds its binomial(L, R).
pub fn exact(numerators: &[i128], k: i128, q: i128) -> i128 {
    let length = numerators.len() - 1;
    numerators
        .iter()
        .enumerate()
        .map(|(at, &numerator)| power(q - k, length - at) * power(k, at) * numerator)
        .sum()
}

/// The surface at the path's place, F(G(k/q)), times 1024^r·q^L.
///
/// Each number of G(k/q) is whole over w = 1024·q^N; F there is whole over
/// w^r = 1024^r·q^L.
pub fn surface(shape: &Shape, surface: &[Travel], path: &[PathNumber], k: i128, q: i128) -> i128 {
    let parts = shape.form.numbers_per_point();
    let place: Vec<i128> = (0..parts)
        .map(|part| {
            let numbers: Vec<i128> = path[part..]
                .iter()
                .step_by(parts)
                .map(|p| i128::from(p.wide()))
                .collect();
            bernstein(&numbers, k, q)
        })
        .collect();
    let whole = 1024 * power(q, shape.path_degree);
    let values: Vec<i128> = surface.iter().map(|travel| i128::from(travel.wide())).collect();
    match shape.form {
        Form::Curve => bernstein(&values, place[0], whole),
        Form::Tensor => {
            let rows: Vec<i128> = values
                .chunks(shape.second + 1)
                .map(|row| bernstein(row, place[1], whole))
                .collect();
            bernstein(&rows, place[0], whole)
        }
        Form::Triangle => triangle(&values, shape.first, [place[0], place[1], place[2]]),
    }
}

/// Σ n!/(i!·j!·k!)·x^i·y^j·z^k·p(i,j,k), the values in 01's order (rule Order of the numbers).
pub fn triangle(values: &[i128], n: usize, [x, y, z]: [i128; 3]) -> i128 {
    let mut next = values.iter();
    let mut sum = 0;
    for i in 0..=n {
        for j in 0..=n - i {
            let k = n - i - j;
            let ways = binomial(n, i) * binomial(n - i, j);
            let value = next.next().expect("a triangle has (n+1)(n+2)/2 values");
            sum += ways * power(x, i) * power(y, j) * power(z, k) * value;
        }
    }
    sum
}
