//! The plain program, written for this comparison: the same answers as the composer's.
//!
//! It adds over all choices of a path point for each argument, and works out every blossom value from the surface's net,
//! from scratch, in 64 bits; numerators that do not fit these are summed and rounded in 128. A net stays where the surface has
//! it: one argument rewrites the places of the net one degree lower, in ascending order, from places that are not yet
//! rewritten. Nothing is allocated, and nothing is shared between choices.

use crate::binomials::Pascal;
use crate::lent::{Lent, Whole};
use crate::rides::Ride;
use second::{Answer, Refusal};

/// The most arguments and the most control values.
const ARGUMENTS: usize = 4;
const VALUES: usize = 15;

/// Answers one request: refused, no array changes; accepted, the first L+1 places of each are written. L is below ROWS.
pub fn compose<L: Lent, const ROWS: usize>(ride: &Ride, lent: &mut L) -> Answer {
    if !(1..=3).contains(&ride.form) {
        return Refusal::Kind.at(0).answer();
    }
    let arguments = u64::from(ride.first) + u64::from(ride.second);
    if arguments > ARGUMENTS as u64 || ride.n > L::MOST || ride.form != 2 && ride.second != 0 {
        return Refusal::Degree.at(0).answer();
    }
    if ride.age > 250 {
        return Refusal::Stale.at(0).answer();
    }
    let sum = Sum {
        form: ride.form,
        first: ride.first as usize,
        second: ride.second as usize,
        n: ride.n as usize,
        surface: &ride.surface,
        path: &ride.path,
    };
    if ride.surface.len() != sum.value_count() {
        return Refusal::Surface.at(0).answer();
    }
    if ride.path.len() != ride.form as usize * (sum.n + 1) {
        return Refusal::Path.at(0).answer();
    }
    let length = sum.arguments() * sum.n;
    if lent.room() < length + 1 {
        return Refusal::Room.at(0).answer();
    }
    if let Some(place) = ride
        .surface
        .iter()
        .position(|v| !(-4096..=4096).contains(v))
    {
        return Refusal::Value.at(place).answer();
    }
    if let Some(place) = ride.path.iter().position(|u| !(0..=1024).contains(u)) {
        return Refusal::Parameter.at(place).answer();
    }
    if ride.form == 3 {
        if let Some(place) = ride.path.chunks(3).position(|p| p[0] + p[1] + p[2] != 1024) {
            return Refusal::Balance.at(place).answer();
        }
    }
    let numerators = sum.numerators::<L::Sum, ROWS>();
    let scale = 1024_i64.pow(sum.arguments() as u32);
    for (place, &numerator) in numerators[..=length].iter().enumerate() {
        let divisor = Pascal::<ROWS>::TRIANGLE[length][place] * scale;
        lent.write(place, numerator, nearest(numerator, divisor));
    }
    Answer {
        number: 0,
        place: 0,
        count: length as u32 + 1,
    }
}

/// The nearest whole number, a half going away from zero. Twice the largest numerator and a divisor fit.
fn nearest<W: Whole>(numerator: W, divisor: i64) -> i32 {
    let half = if numerator < W::default() {
        -divisor
    } else {
        divisor
    };
    ((W::from(2) * numerator + W::from(half)) / W::from(2 * divisor)).small()
}

/// An accepted request.
struct Sum<'a> {
    form: u32,
    first: usize,
    second: usize,
    n: usize,
    surface: &'a [i32],
    path: &'a [i32],
}

impl Sum<'_> {
    /// r
    fn arguments(&self) -> usize {
        self.first + self.second
    }

    fn value_count(&self) -> usize {
        match self.form {
            3 => (self.first + 1) * (self.first + 2) / 2,
            _ => (self.first + 1) * (self.second + 1),
        }
    }

    #[inline(never)]
    fn numerators<W: Whole, const ROWS: usize>(&self) -> [W; ROWS] {
        let mut net = [0; VALUES];
        for (value, &travel) in net.iter_mut().zip(self.surface) {
            *value = i64::from(travel);
        }
        let mut sums = [W::default(); ROWS];
        let mut choice = [0; ARGUMENTS];
        let choice = &mut choice[..self.arguments()];
        loop {
            let mut ways = 1;
            for &number in choice.iter() {
                ways *= Pascal::<ROWS>::TRIANGLE[self.n][number];
            }
            sums[choice.iter().sum::<usize>()] +=
                W::from(ways) * W::from(self.blossom(net, choice));
            // the next choice: the last number that can grow does, those after it start again
            let Some(turn) = choice.iter().rposition(|&number| number < self.n) else {
                return sums;
            };
            choice[turn] += 1;
            choice[turn + 1..].fill(0);
        }
    }

    /// The blossom value of a net at the points of a choice, times 1024^r.
    #[inline(always)]
    fn blossom(&self, mut net: [i64; VALUES], choice: &[usize]) -> i64 {
        for (turn, &number) in choice.iter().enumerate() {
            let path = &self.path[self.form as usize * number..];
            match self.form {
                3 => self.across(&mut net, self.first - 1 - turn, path),
                2 if turn >= self.first => along(&mut net, self.arguments() - turn, 1, path[1]),
                _ => {
                    let row = self.second + 1;
                    along(&mut net, (self.first - turn) * row, row, path[0]);
                }
            }
        }
        net[0]
    }

    /// x, y, z: the places of a triangle of this degree, in the rows of the surface's.
    fn across(&self, net: &mut [i64; VALUES], degree: usize, point: &[i32]) {
        let [x, y, z] = [point[0], point[1], point[2]].map(i64::from);
        let mut row = 0;
        for i in 0..=degree {
            let next = row + self.first + 1 - i;
            for j in 0..=degree - i {
                net[row + j] = x * net[next + j] + y * net[row + j + 1] + z * net[row + j];
            }
            row = next;
        }
    }
}

/// u, or v: the first `count` places, each from itself and from the place `step` further.
fn along(net: &mut [i64; VALUES], count: usize, step: usize, u: i32) {
    let (near, far) = (i64::from(1024 - u), i64::from(u));
    for place in 0..count {
        net[place] = near * net[place] + far * net[place + step];
    }
}
