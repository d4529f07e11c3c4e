//! The arrays that are lent for an answer, two words to a numerator. They also say which rides are asked: `Short` those with N up
//! to 3, whose numerators are summed in 64 bits by the plain and the best program; `Long` those with N up to 6, in 128.

use std::fmt::Debug;
use std::ops::{Add, AddAssign, Div, Mul};

/// Whole numbers that hold every numerator of a kind of rides, twice over.
pub trait Whole:
    Copy
    + Default
    + PartialOrd
    + From<i64>
    + Add<Output = Self>
    + AddAssign
    + Mul<Output = Self>
    + Div<Output = Self>
{
    /// Its size, divided by 2^shift, which fits.
    fn size_over(self, shift: u32) -> u64;
    /// Itself, a point.
    fn small(self) -> i32;
}

impl Whole for i64 {
    #[inline(always)]
    fn size_over(self, shift: u32) -> u64 {
        self.unsigned_abs() >> shift
    }

    #[inline(always)]
    fn small(self) -> i32 {
        self as i32
    }
}

impl Whole for i128 {
    #[inline(always)]
    fn size_over(self, shift: u32) -> u64 {
        (self.unsigned_abs() >> shift) as u64
    }

    #[inline(always)]
    fn small(self) -> i32 {
        self as i32
    }
}

pub trait Lent: PartialEq + Debug {
    /// The greatest N.
    const MOST: u32;
    type Sum: Whole;

    /// Arrays with room for the longest answer, each place marked.
    fn marked() -> Self;

    /// The places that all arrays have.
    fn room(&self) -> usize;
    /// Writes a numerator and its rounded point.
    fn write(&mut self, place: usize, numerator: Self::Sum, point: i32);
    /// The numerator at a place.
    fn numerator(&self, place: usize) -> i128;
}

#[derive(Debug, PartialEq)]
pub struct Short {
    pub high: Vec<i64>,
    pub low: Vec<u64>,
    pub points: Vec<i32>,
}

impl Lent for Short {
    const MOST: u32 = 3;
    type Sum = i64;

    fn marked() -> Self {
        Short {
            high: vec![i64::MIN; 13],
            low: vec![u64::MAX / 3; 13],
            points: vec![i32::MIN; 13],
        }
    }

    #[inline(always)]
    fn room(&self) -> usize {
        self.high.len().min(self.low.len()).min(self.points.len())
    }

    #[inline(always)]
    fn write(&mut self, place: usize, numerator: i64, point: i32) {
        self.high[place] = numerator >> 63;
        self.low[place] = numerator as u64;
        self.points[place] = point;
    }

    fn numerator(&self, place: usize) -> i128 {
        (i128::from(self.high[place]) << 64) + i128::from(self.low[place])
    }
}

#[derive(Debug, PartialEq)]
pub struct Long {
    pub high: Vec<i64>,
    pub low: Vec<u64>,
    pub points: Vec<i32>,
}

impl Lent for Long {
    const MOST: u32 = 6;
    type Sum = i128;

    fn marked() -> Self {
        Long {
            high: vec![i64::MIN; 25],
            low: vec![u64::MAX / 3; 25],
            points: vec![i32::MIN; 25],
        }
    }

    #[inline(always)]
    fn room(&self) -> usize {
        self.high.len().min(self.low.len()).min(self.points.len())
    }

    #[inline(always)]
    fn write(&mut self, place: usize, numerator: i128, point: i32) {
        self.high[place] = (numerator >> 64) as i64;
        self.low[place] = numerator as u64;
        self.points[place] = point;
    }

    fn numerator(&self, place: usize) -> i128 {
        (i128::from(self.high[place]) << 64) + i128::from(self.low[place])
    }
}
