//! The best program: the fastest Rust that we can write by the composer's own rules, as a limit to hold it against. Nobody
//! proved it.
//!
//! It forms each set of arguments once: runs of path point numbers that never go back, extended one argument at a time, each
//! weighed by its arrangements. It is unrolled by degree, so that every net lies in registers and no degree is asked for while
//! it runs; no index into its tables is checked; a request is judged in one sweep, and only a bad one in the stated order. An
//! entry takes one product for a curve, 1024·p + u·(q − p), and two for a triangle; a point takes one division.

use crate::binomials::Pascal;
use crate::lent::{Lent, Whole};
use crate::plain;
use crate::rides::Ride;
use second::Answer;

/// The path points, at most seven.
const POINTS: usize = 7;

/// Answers one request as the composer does. L is below ROWS.
pub fn compose<L: Lent, const ROWS: usize>(ride: &Ride, lent: &mut L) -> Answer {
    let Some(length) = sound(ride, L::MOST, lent.room()) else {
        // something is wrong with it: the plain program says what
        return plain::compose::<L, ROWS>(ride, lent);
    };
    let sums = numerators::<L::Sum, ROWS>(ride);
    let arguments = ride.first + ride.second;
    let row = &Pascal::<ROWS>::TRIANGLE[length];
    for place in 0..=length {
        let numerator = sums[place];
        // of n / (d·2^(10r)) the size is ⌊(⌊2n / 2^(10r)⌋ + d) / 2d⌋, and what is divided fits 64 bits
        let twice = match arguments {
            0 => 2 * numerator.size_over(0),
            r => numerator.size_over(10 * r - 1),
        };
        let d = row[place] as u64;
        let size = ((twice + d) / (2 * d)) as i32;
        let negative = numerator < L::Sum::default();
        lent.write(place, numerator, if negative { -size } else { size });
    }
    Answer {
        number: 0,
        place: 0,
        count: length as u32 + 1,
    }
}

/// L, if no refusal applies: all numbers in one sweep, with no way out on the way.
#[inline(always)]
fn sound(ride: &Ride, most: u32, room: usize) -> Option<usize> {
    let &Ride {
        form,
        first,
        second,
        n,
        age,
        ..
    } = ride;
    let degrees = first <= 4 && second <= 4 && first + second <= 4 && n <= most;
    if !(1..=3).contains(&form) || !degrees || form != 2 && second != 0 || age > 250 {
        return None;
    }
    let (first, second, n) = (first as usize, second as usize, n as usize);
    let values = match form {
        3 => (first + 1) * (first + 2) / 2,
        _ => (first + 1) * (second + 1),
    };
    let length = (first + second) * n;
    if ride.surface.len() != values
        || ride.path.len() != form as usize * (n + 1)
        || room < length + 1
    {
        return None;
    }
    let mut wrong = false;
    for &value in &ride.surface {
        wrong |= value.wrapping_add(4096) as u32 > 8192;
    }
    for &number in &ride.path {
        wrong |= number as u32 > 1024;
    }
    if form == 3 {
        for point in ride.path.chunks_exact(3) {
            wrong |= point[0].wrapping_add(point[1]).wrapping_add(point[2]) != 1024;
        }
    }
    (!wrong).then_some(length)
}

/// The path of a sound ride, a row for each number of a point, and the weights N over c. Of x, y, z only x and y are needed.
struct Path {
    first: [i64; POINTS],
    second: [i64; POINTS],
    weight: [i64; POINTS],
    /// N
    last: usize,
}

/// A run: the point that it may go on with, how many arguments were left when it came to that point, its weight so far and the
/// sum of its numbers.
#[derive(Clone, Copy)]
struct Run {
    from: usize,
    begun: usize,
    weight: i64,
    sum: usize,
}

impl Run {
    /// A run of a group of this many arguments, after another group's.
    #[inline(always)]
    fn anew(self, arguments: usize) -> Run {
        Run {
            from: 0,
            begun: arguments,
            ..self
        }
    }

    /// The run before it leaves its point for a later one, with this many arguments left: those that took the point may have
    /// been any of the ones that were left when it came there.
    #[inline(always)]
    fn closed(self, left: usize) -> Run {
        Run {
            begun: left,
            weight: self.weight * at(&Pascal::<5>::TRIANGLE[self.begun], left),
            ..self
        }
    }

    /// The run extended by point c.
    #[inline(always)]
    fn with(self, c: usize, path: &Path) -> Run {
        Run {
            from: c,
            weight: self.weight * at(&path.weight, c),
            sum: self.sum + c,
            ..self
        }
    }
}

#[inline(always)]
fn at<const N: usize>(numbers: &[i64; N], place: usize) -> i64 {
    debug_assert!(place < N);
    // SAFETY: a sound ride has at most seven path points, and at most four arguments.
    unsafe { *numbers.get_unchecked(place) }
}

/// A run that has used up its arguments: its weight times its blossom value goes to its place.
#[inline(always)]
fn settle<W: Whole, const ROWS: usize>(_: &Path, net: [i64; 1], run: Run, sums: &mut [W; ROWS]) {
    debug_assert!(run.sum < ROWS);
    // SAFETY: the numbers of a sound ride's run add up to L at most.
    *unsafe { sums.get_unchecked_mut(run.sum) } += W::from(run.weight) * W::from(net[0]);
}

/// Defines $name: a run of a net of $size numbers with $left arguments left in its group is extended by one argument in every
/// way, by its own point first and then by each later one. $lower makes the net of one argument, and $next goes on with it.
macro_rules! extend {
    ($name:ident, $left:literal, $size:expr, $lower:expr, $next:ident) => {
        #[inline(always)]
        fn $name<W: Whole, const ROWS: usize>(
            path: &Path,
            net: [i64; $size],
            run: Run,
            sums: &mut [W; ROWS],
        ) {
            let from = run.from;
            $next(path, $lower(path, from, &net), run.with(from, path), sums);
            let run = run.closed($left);
            for c in from + 1..=path.last {
                $next(path, $lower(path, c, &net), run.with(c, path), sums);
            }
        }
    };
}

/// u, or v: each number from itself and from the one `step` further.
#[inline(always)]
fn along<const SIZE: usize, const LOWER: usize>(u: i64, net: &[i64; SIZE]) -> [i64; LOWER] {
    // the last group of numbers is used up: this many stand in one
    let step = SIZE - LOWER;
    let mut lower = [0; LOWER];
    for place in 0..LOWER {
        lower[place] = 1024 * net[place] + u * (net[place + step] - net[place]);
    }
    lower
}

#[inline(always)]
fn along_first<const SIZE: usize, const LOWER: usize>(
    path: &Path,
    c: usize,
    net: &[i64; SIZE],
) -> [i64; LOWER] {
    along(at(&path.first, c), net)
}

#[inline(always)]
fn along_second<const SIZE: usize, const LOWER: usize>(
    path: &Path,
    c: usize,
    net: &[i64; SIZE],
) -> [i64; LOWER] {
    along(at(&path.second, c), net)
}

/// x, y, z, with z = 1024 − x − y: each number of a triangle from itself, from its neighbour in the row, and from the one in the
/// next row.
#[inline(always)]
fn across<const SIZE: usize, const LOWER: usize>(
    path: &Path,
    c: usize,
    net: &[i64; SIZE],
) -> [i64; LOWER] {
    let (x, y) = (at(&path.first, c), at(&path.second, c));
    let mut lower = [0; LOWER];
    // the first row of a triangle is as long as what the lower one lacks
    let (mut row, mut place, mut start) = (SIZE - LOWER, 0, 0);
    while row > 1 {
        for j in 0..row - 1 {
            let [near, right, up] = [start + j, start + j + 1, start + j + row].map(|k| net[k]);
            lower[place] = 1024 * near + y * (right - near) + x * (up - near);
            place += 1;
        }
        start += row;
        row -= 1;
    }
    lower
}

extend!(curve1, 1, 2, along_first, settle);
extend!(curve2, 2, 3, along_first, curve1);
extend!(curve3, 3, 4, along_first, curve2);
extend!(curve4, 4, 5, along_first, curve3);

extend!(triangle1, 1, 3, across, settle);
extend!(triangle2, 2, 6, across, triangle1);
extend!(triangle3, 3, 10, across, triangle2);
extend!(triangle4, 4, 15, across, triangle3);

// form 2: the v arguments come after the u arguments, in runs of their own
extend!(v1, 1, 2, along_second, settle);
extend!(v2, 2, 3, along_second, v1);
extend!(v3, 3, 4, along_second, v2);
extend!(v4, 4, 5, along_second, v3);

macro_rules! turn {
    ($name:ident, $left:literal, $next:ident) => {
        #[inline(always)]
        fn $name<W: Whole, const ROWS: usize>(
            path: &Path,
            net: [i64; $left + 1],
            run: Run,
            sums: &mut [W; ROWS],
        ) {
            $next(path, net, run.anew($left), sums);
        }
    };
}
turn!(turn1, 1, v1);
turn!(turn2, 2, v2);
turn!(turn3, 3, v3);
extend!(u1_v1, 1, 4, along_first, turn1);
extend!(u2_v1, 2, 6, along_first, u1_v1);
extend!(u3_v1, 3, 8, along_first, u2_v1);
extend!(u1_v2, 1, 6, along_first, turn2);
extend!(u2_v2, 2, 9, along_first, u1_v2);
extend!(u1_v3, 1, 8, along_first, turn3);

#[inline(always)]
fn numerators<W: Whole, const ROWS: usize>(ride: &Ride) -> [W; ROWS] {
    let mut path = Path {
        first: [0; POINTS],
        second: [0; POINTS],
        weight: [0; POINTS],
        last: ride.n as usize,
    };
    let row = |numbers: &mut [i64; POINTS], part: usize| {
        for (number, &of) in numbers
            .iter_mut()
            .zip(ride.path[part..].iter().step_by(ride.form as usize))
        {
            *number = i64::from(of);
        }
    };
    row(&mut path.first, 0);
    if ride.form > 1 {
        row(&mut path.second, 1);
    }
    path.weight
        .copy_from_slice(&Pascal::<ROWS>::TRIANGLE[path.last][..POINTS]);

    let mut net = [0; 15];
    for (value, &travel) in net.iter_mut().zip(&ride.surface) {
        *value = i64::from(travel);
    }
    let mut sums = [W::default(); ROWS];
    /// Starts a run of all arguments on the first numbers of the net.
    macro_rules! start {
        ($extend:ident, $arguments:literal) => {{
            let run = Run {
                from: 0,
                begun: $arguments,
                weight: 1,
                sum: 0,
            };
            $extend(
                &path,
                *net.first_chunk().expect("a net has 15 places"),
                run,
                &mut sums,
            )
        }};
    }
    match (ride.form, ride.first, ride.second) {
        (_, 0, 0) => sums[0] = W::from(net[0]),
        (3, 1, _) => start!(triangle1, 1),
        (3, 2, _) => start!(triangle2, 2),
        (3, 3, _) => start!(triangle3, 3),
        (3, _, _) => start!(triangle4, 4),
        (_, 1, 0) => start!(curve1, 1),
        (_, 2, 0) => start!(curve2, 2),
        (_, 3, 0) => start!(curve3, 3),
        (_, 4, 0) => start!(curve4, 4),
        (_, 0, 1) => start!(v1, 1),
        (_, 0, 2) => start!(v2, 2),
        (_, 0, 3) => start!(v3, 3),
        (_, 0, _) => start!(v4, 4),
        (_, 1, 1) => start!(u1_v1, 1),
        (_, 2, 1) => start!(u2_v1, 2),
        (_, _, 1) => start!(u3_v1, 3),
        (_, 1, 2) => start!(u1_v2, 1),
        (_, _, 2) => start!(u2_v2, 2),
        (_, _, _) => start!(u1_v3, 1),
    }
    sums
}
