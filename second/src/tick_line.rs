//! Tick lines: `tick count point.. k`, answered by `number place reading`.

use crate::line::{append, Words};
use crate::tick::{tick, Tick};

/// The word that a tick line begins with.
pub const TICK: &[u8] = b"tick";

/// A net and a moment, as a line gives them.
#[derive(Clone, Debug, PartialEq, Eq)]
pub struct Net {
    pub points: Vec<i32>,
    pub k: u32,
}

impl Net {
    /// Reads what stands behind the word.
    pub fn read(words: &mut Words) -> Result<Net, String> {
        let points = words.list("point")?;
        let k = words.unsigned("the moment")?;
        match words.left() {
            0 => Ok(Net { points, k }),
            left => Err(format!("{left} words left over")),
        }
    }

    /// The line; reading it gives the same net and moment back.
    pub fn line(&self) -> String {
        let mut line = format!("tick {}", self.points.len());
        append(&mut line, &self.points);
        append(&mut line, &[self.k]);
        line
    }

    /// The answer line.
    pub fn answer(&self) -> String {
        let Tick {
            number,
            place,
            reading,
        } = tick(&self.points, self.k);
        format!("{number} {place} {reading}")
    }
}
