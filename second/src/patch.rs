//! Ticket 8 (rule Patches on patches): a triangular piece of a triangular surface,
//! the piece curved: source document 002, theorem 1, by its sum over all choices.

use crate::blossom::{blossom, Argument, Net};
use crate::quantity::{PathNumber, Travel, SCALE};
use crate::refusal::{Refusal, Refused};
use crate::rounding::nearest;
use crate::shape::{Form, Shape};
use crate::Answer;

/// The largest outer degree, and the largest domain degree.
pub const MOST_DEGREE: u32 = 3;

/// The indices (i, j, k) with sum `degree`, in the order of 01 (rule Order of the numbers).
pub fn indices(degree: usize) -> Vec<[usize; 3]> {
    let mut all = Vec::new();
    for i in 0..=degree {
        for j in 0..=degree - i {
            all.push([i, j, degree - i - j]);
        }
    }
    all
}

/// (i+j+k)! / (i! j! k!)
pub fn multinomial([i, j, k]: [usize; 3]) -> i128 {
    let factorial = |n: usize| (1..=n as i128).product::<i128>();
    factorial(i + j + k) / (factorial(i) * factorial(j) * factorial(k))
}

/// Answers one patch: outer degree n, domain degree N, the surface's control
/// values, and three numbers to each domain point.
///
/// Refused, neither array changes. Accepted, the first (L+1)(L+2)/2 places of
/// each are written, L = n·N, and all later places stay.
pub fn patch(
    outer: u32,
    domain: u32,
    surface: &[i32],
    path: &[i32],
    exact: &mut [i64],
    points: &mut [i32],
) -> Answer {
    let room = exact.len().min(points.len());
    let composed = match composed(outer, domain, surface, path, room) {
        Ok(composed) => composed,
        Err(refused) => return refused.answer(),
    };
    for (place, &(numerator, point)) in composed.iter().enumerate() {
        exact[place] = i64::try_from(numerator).expect("it fits one signed 64-bit number");
        points[place] = i32::try_from(point).expect("a point is at most 4096 in size");
    }
    Answer::accepted(composed.len())
}

/// The numerators and rounded points in 01's order (rule Order of the numbers), or the first refusal.
fn composed(
    outer: u32,
    domain: u32,
    surface: &[i32],
    path: &[i32],
    room: usize,
) -> Result<Vec<(i128, i128)>, Refused> {
    if outer > MOST_DEGREE || domain > MOST_DEGREE {
        return Err(Refusal::Degree.at(0));
    }
    let (outer, domain) = (outer as usize, domain as usize);
    let (chosen, written) = (indices(domain), indices(outer * domain));
    if surface.len() != indices(outer).len() {
        return Err(Refusal::Surface.at(0));
    }
    if path.len() != 3 * chosen.len() {
        return Err(Refusal::Path.at(0));
    }
    if room < written.len() {
        return Err(Refusal::Room.at(0));
    }
    let mut travels = Vec::new();
    for (place, &value) in surface.iter().enumerate() {
        travels.push(Travel::new(value).ok_or(Refusal::Value.at(place))?);
    }
    let mut numbers = Vec::new();
    for (place, &number) in path.iter().enumerate() {
        numbers.push(PathNumber::new(number).ok_or(Refusal::Parameter.at(place))?);
    }
    let unbalanced = |point: &[i32]| point.iter().sum::<i32>() != SCALE;
    if let Some(place) = path.chunks(3).position(unbalanced) {
        return Err(Refusal::Balance.at(place));
    }

    let shape = Shape {
        form: Form::Triangle,
        first: outer,
        second: 0,
        path_degree: 0,
    };
    let net = Net::of(&shape, &travels);
    let domain_point = |at: usize| Argument::Xyz([0, 1, 2].map(|part| numbers[3 * at + part]));
    let mut sums = vec![0; written.len()];
    for code in 0..chosen.len().pow(outer as u32) {
        // one domain point for each of the arguments
        let choice: Vec<usize> = (0..outer)
            .map(|turn| code / chosen.len().pow(turn as u32) % chosen.len())
            .collect();
        let ways: i128 = choice.iter().map(|&at| multinomial(chosen[at])).product();
        let index = [0, 1, 2].map(|part| choice.iter().map(|&at| chosen[at][part]).sum());
        let place = written.iter().position(|&at| at == index);
        let place = place.expect("the indices of a choice add up to one of L");
        sums[place] += ways * blossom(net, choice.iter().map(|&at| domain_point(at)));
    }
    let scale = i128::from(SCALE).pow(outer as u32);
    let rounded = |(&index, sum)| (sum, nearest(sum, multinomial(index) * scale));
    Ok(written.iter().zip(sums).map(rounded).collect())
}
