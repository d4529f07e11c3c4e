//! Travels and path numbers: two kinds that must not be mixed.

/// The path number that stands for 1.
pub const SCALE: i32 = 1024;

/// The largest size of a control value.
pub const REACH: i32 = 4096;

/// A roller travel in 0.01 mm, within −4096 to 4096.
#[derive(Clone, Copy, Debug, PartialEq, Eq)]
pub struct Travel(i32);

impl Travel {
    /// The travel, if the value keeps its bounds.
    pub fn new(value: i32) -> Option<Self> {
        (-REACH..=REACH).contains(&value).then_some(Self(value))
    }

    /// The value, wide.
    pub fn wide(self) -> i64 {
        i64::from(self.0)
    }
}

/// A path number in 1/1024, within 0 to 1024.
#[derive(Clone, Copy, Debug, PartialEq, Eq)]
pub struct PathNumber(i32);

impl PathNumber {
    /// The path number, if the value keeps its bounds.
    pub fn new(value: i32) -> Option<Self> {
        (0..=SCALE).contains(&value).then_some(Self(value))
    }

    /// The value, wide.
    pub fn wide(self) -> i64 {
        i64::from(self.0)
    }
}
