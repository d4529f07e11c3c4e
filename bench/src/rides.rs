//! Accepted rides, the same for the same seed.

use second::binomial::binomial;
use second::xorshift::Xorshift;

/// One accepted request.
#[derive(Debug)]
pub struct Ride {
    pub form: u32,
    pub first: u32,
    pub second: u32,
    pub n: u32,
    pub age: u16,
    pub surface: Vec<i32>,
    pub path: Vec<i32>,
}

impl Ride {
    /// How many choices the sum runs over: (N+1)^r.
    pub fn choices(&self) -> u64 {
        (u64::from(self.n) + 1).pow(self.first + self.second)
    }

    /// Whether this numerator's point lies exactly between two whole numbers.
    pub fn is_half(&self, place: usize, numerator: i128) -> bool {
        let arguments = self.first + self.second;
        let divisor = binomial((arguments * self.n) as usize, place) * 1024_i128.pow(arguments);
        (2 * numerator).rem_euclid(2 * divisor) == divisor
    }
}

/// Rides of mixed forms with N at most `most`: the form, the degrees of that form and N are each drawn evenly from all legal
/// ones.
pub fn mixed(rng: &mut Xorshift, count: usize, most: u32) -> Vec<Ride> {
    let rides = (0..count).map(|_| any(rng, most)).collect();
    aged(rng, rides)
}

fn any(rng: &mut Xorshift, most: u32) -> Ride {
    let form = rng.pick(&[1, 2, 3]);
    let degrees: Vec<(u32, u32)> = (0..=4).flat_map(|r| splits(form, r)).collect();
    let degrees = rng.pick(&degrees);
    let n = rng.below(most as usize + 1) as u32;
    ride(rng, form, degrees, n)
}

/// Rides at the edges: mixed shapes, path numbers 0, 512 and 1024, and by turns all control values 4096, all −4096, each the
/// one or the other, and small ones, which come out at exact halves.
pub fn edges(rng: &mut Xorshift, count: usize, most: u32) -> Vec<Ride> {
    let rides = (0..count)
        .map(|turn| {
            let mut ride = any(rng, most);
            for value in &mut ride.surface {
                *value = match turn % 4 {
                    0 => 4096,
                    1 => -4096,
                    2 => rng.pick(&[-4096, 4096]),
                    _ => rng.between(-9, 9),
                };
            }
            for point in ride.path.chunks_mut(ride.form as usize) {
                if let [x, y, z] = point {
                    let (half, whole) = (rng.below(3), rng.below(3));
                    for (part, number) in [x, y, z].into_iter().enumerate() {
                        *number = 512 * (i32::from(part == half) + i32::from(part == whole));
                    }
                } else {
                    point.fill_with(|| rng.pick(&[0, 512, 1024]));
                }
            }
            ride
        })
        .collect();
    aged(rng, rides)
}

/// Rides of one form with r arguments and a path of degree N; in form 2 the ways to split r come in turn.
pub fn alike(rng: &mut Xorshift, count: usize, form: u32, r: u32, n: u32) -> Vec<Ride> {
    let degrees = splits(form, r);
    let rides = (0..count)
        .map(|turn| ride(rng, form, degrees[turn % degrees.len()], n))
        .collect();
    aged(rng, rides)
}

/// These rides with ages drawn evenly from all legal ones.
fn aged(rng: &mut Xorshift, mut rides: Vec<Ride>) -> Vec<Ride> {
    for ride in &mut rides {
        ride.age = rng.between(0, 250) as u16;
    }
    rides
}

/// The first and second degrees with sum r.
fn splits(form: u32, r: u32) -> Vec<(u32, u32)> {
    match form {
        2 => (0..=r).map(|second| (r - second, second)).collect(),
        _ => vec![(r, 0)],
    }
}

/// A ride of age 0 with control values and path numbers drawn evenly from all legal ones.
fn ride(rng: &mut Xorshift, form: u32, (first, second): (u32, u32), n: u32) -> Ride {
    let values = match form {
        3 => (first + 1) * (first + 2) / 2,
        _ => (first + 1) * (second + 1),
    };
    let surface = (0..values).map(|_| rng.between(-4096, 4096)).collect();
    let mut path = Vec::new();
    for _ in 0..=n {
        let x = rng.between(0, 1024);
        match form {
            1 => path.push(x),
            2 => path.extend([x, rng.between(0, 1024)]),
            _ => {
                let y = rng.between(0, 1024 - x);
                path.extend([x, y, 1024 - x - y]);
            }
        }
    }
    Ride {
        form,
        first,
        second,
        n,
        age: 0,
        surface,
        path,
    }
}
