//! Random requests with three rooms, for ticket 6 (rule Two words), the same for the same seed.

use super::Sampler;
use crate::line::{read, Asked, OWN_ROOM};
use crate::xorshift::Xorshift;
use crate::{Answer, Request};

/// A request and the rooms of its three arrays.
#[derive(Clone, Debug)]
pub struct Rooms {
    pub asked: Asked,
    /// For high words, low words and points.
    pub rooms: [usize; 3],
}

/// An answer with its entries, and the three arrays after it.
pub type Answered = ((Answer, u64), Vec<i64>, Vec<u64>, Vec<i32>);

impl Rooms {
    /// Has this answered, on arrays that are marked beforehand.
    pub fn answered(
        &self,
        mut compose: impl FnMut(&Request, &mut [i64], &mut [u64], &mut [i32]) -> (Answer, u64),
    ) -> Answered {
        let [high, low, points] = self.rooms;
        let mut high = vec![-7; high];
        let mut low = vec![7 << 60; low];
        let mut points = vec![-9; points];
        let request = self.asked.request();
        let answer = compose(&request, &mut high, &mut low, &mut points);
        (answer, high, low, points)
    }
}

/// The stream of one seed.
pub struct Longs {
    sampler: Sampler,
    rng: Xorshift,
}

impl Longs {
    pub fn new(seed: u64) -> Self {
        Longs {
            sampler: Sampler::new(seed),
            rng: Xorshift::new(!seed),
        }
    }

    /// The next request that can be read. Mostly all arrays have enough room.
    pub fn draw(&mut self) -> (String, Rooms) {
        loop {
            let sample = self.sampler.draw();
            let Ok(asked) = read(&sample.line) else {
                continue;
            };
            let own = OWN_ROOM;
            let (exact, points) = asked.rooms.unwrap_or((own, own));
            let low = match self.rng.below(8) {
                0 => exact.saturating_sub(1),
                1 => exact + 1,
                2 => self.rng.below(26),
                _ => exact,
            };
            let rooms = [exact, low, points];
            return (sample.kind, Rooms { asked, rooms });
        }
    }
}
