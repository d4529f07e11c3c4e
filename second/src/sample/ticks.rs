//! Random nets and moments, for ticket 9 (rule Reading at a tick), the same for the same seed.

use crate::quantity::REACH;
use crate::xorshift::Xorshift;

/// Moments at and about the bounds and the middle.
const MOMENTS: [u32; 7] = [0, 1, 511, 512, 513, 1023, 1024];

/// The stream of one seed.
pub struct Ticks {
    rng: Xorshift,
    turn: usize,
}

impl Ticks {
    pub fn new(seed: u64) -> Self {
        Ticks {
            rng: Xorshift::new(seed),
            turn: 0,
        }
    }

    /// The next net and moment.
    pub fn draw(&mut self) -> (String, (Vec<i32>, u32)) {
        self.turn += 1;
        let (mut points, mut k) = (self.points(), self.moment());
        let kind = match self.turn % 8 {
            0 => {
                self.spoil_count(&mut points);
                "a count that no net has"
            }
            1 => {
                self.spoil_point(&mut points);
                "a point beyond its bounds"
            }
            2 => {
                k = self.bad_moment();
                "a moment beyond its bound"
            }
            3 => {
                if self.rng.below(2) == 0 {
                    self.spoil_count(&mut points);
                }
                if self.rng.below(2) == 0 {
                    self.spoil_point(&mut points);
                }
                if self.rng.below(2) == 0 {
                    k = self.bad_moment();
                }
                "several at once"
            }
            _ => "accepted",
        };
        (kind.to_string(), (points, k))
    }

    /// A net of 1 to 25 points, all within a reach, or all at the bounds.
    fn points(&mut self) -> Vec<i32> {
        let count = 1 + self.rng.below(25);
        let reach = self.rng.pick(&[REACH, REACH, 60, 3]);
        let ends = self.rng.once_in(4);
        let point = |rng: &mut Xorshift| match ends {
            true => rng.pick(&[-REACH, REACH]),
            false => rng.between(-reach, reach),
        };
        (0..count).map(|_| point(&mut self.rng)).collect()
    }

    fn moment(&mut self) -> u32 {
        match self.rng.below(2) {
            0 => self.rng.pick(&MOMENTS),
            _ => self.rng.between(0, 1024) as u32,
        }
    }

    fn bad_moment(&mut self) -> u32 {
        let any = 1025 + self.rng.below(1 << 31) as u32;
        self.rng
            .pick(&[1025, 1026, 2048, 65_536, 1 << 31, u32::MAX, any])
    }

    fn spoil_count(&mut self, points: &mut Vec<i32>) {
        let count = self.rng.pick(&[0, 26, 27, 51, 256]);
        points.resize(count, 5);
    }

    fn spoil_point(&mut self, points: &mut [i32]) {
        for _ in 0..self.rng.pick(&[1, 1, 2]) {
            if !points.is_empty() {
                let place = self.rng.below(points.len());
                points[place] = self.rng.pick(&[4097, -4097, 65_536, i32::MIN, i32::MAX]);
            }
        }
    }
}
