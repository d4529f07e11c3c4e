//! Random parts for the card of ticket 11 (rule Part of a curve), the same for the same seed.

use crate::card::Part;
use crate::quantity::REACH;
use crate::xorshift::Xorshift;

/// Numbers that are no path number, or minus zero, which is one.
const ODD: [f64; 18] = [
    f64::NAN,
    -f64::NAN,
    f64::INFINITY,
    f64::NEG_INFINITY,
    f64::MIN_POSITIVE,
    -f64::MIN_POSITIVE,
    f64::MAX,
    -0.0,
    0.5,
    -0.5,
    0.999_999_999_999_999_9,
    1_023.5,
    1_024.000_000_000_000_2,
    1_025.0,
    -1.0,
    1e308,
    4_294_967_296.0,
    9_007_199_254_740_993.0,
];

/// By their bits: NaNs of several payloads, quiet and signalling, and the
/// subnormals at both ends.
const BARE: [u64; 8] = [
    0x7ff8_0000_0000_0001,
    0xfff8_dead_beef_0000,
    0x7ff0_0000_0000_0001,
    0xffff_ffff_ffff_ffff,
    0x0000_0000_0000_0001,
    0x8000_0000_0000_0001,
    0x000f_ffff_ffff_ffff,
    0x800f_ffff_ffff_ffff,
];

/// The stream of one seed.
pub struct Cards {
    rng: Xorshift,
    turn: usize,
}

impl Cards {
    pub fn new(seed: u64) -> Self {
        Cards {
            rng: Xorshift::new(seed),
            turn: 0,
        }
    }

    /// The next degree, control values and part.
    pub fn draw(&mut self) -> (String, (u32, Vec<i32>, Part)) {
        self.turn += 1;
        let turn = self.turn / 8;
        let mut m = self.rng.below(5) as u32;
        let mut surface = self.surface(m);
        let mut part = match self.rng.below(2) {
            0 => Part::Stay(self.whole()),
            _ => Part::Line(self.whole(), self.whole()),
        };
        let kind = match self.turn % 8 {
            0 => {
                part = Part::Stay((turn % 1025) as f64);
                "each stay in turn"
            }
            1 => {
                let ends = [0.0, -0.0, 1.0, 512.0, 1023.0, 1024.0];
                part = Part::Line(ends[turn % 6], ends[turn / 6 % 6]);
                "lines at the ends"
            }
            2 => {
                part = self.spoiled(part);
                "a number that is no path number"
            }
            3 => {
                m = self.rng.pick(&[5, 6, 255, u32::MAX]);
                "a degree above 4"
            }
            4 => {
                let count = self.rng.below(7);
                surface.resize(count, 1);
                "any count of control values"
            }
            5 => {
                self.spoil_value(&mut surface);
                "a control value beyond its bounds"
            }
            6 => {
                if self.rng.once_in(2) {
                    m = self.rng.below(7) as u32;
                }
                if self.rng.once_in(2) {
                    self.spoil_value(&mut surface);
                }
                part = self.spoiled(part);
                "several at once"
            }
            _ => "accepted",
        };
        (kind.to_string(), (m, surface, part))
    }

    fn whole(&mut self) -> f64 {
        f64::from(self.rng.between(0, 1024))
    }

    fn surface(&mut self, m: u32) -> Vec<i32> {
        let reach = self.rng.pick(&[REACH, REACH, 1, 0]);
        let ends = self.rng.once_in(4);
        let value = |rng: &mut Xorshift| match ends {
            true => rng.pick(&[-reach, reach]),
            false => rng.between(-reach, reach),
        };
        (0..=m).map(|_| value(&mut self.rng)).collect()
    }

    fn spoil_value(&mut self, surface: &mut [i32]) {
        if !surface.is_empty() {
            let place = self.rng.below(surface.len());
            surface[place] = self.rng.pick(&[4097, -4097, i32::MIN, i32::MAX]);
        }
    }

    /// The part with a number changed, or with both.
    fn spoiled(&mut self, part: Part) -> Part {
        match part {
            Part::Stay(_) => Part::Stay(self.odd()),
            Part::Line(from, to) => match self.rng.below(3) {
                0 => Part::Line(self.odd(), to),
                1 => Part::Line(from, self.odd()),
                _ => Part::Line(self.odd(), self.odd()),
            },
        }
    }

    /// A number of the list, any bits, or the neighbour of a path number.
    fn odd(&mut self) -> f64 {
        match self.rng.below(5) {
            0 => f64::from_bits(self.rng.bits()),
            1 => {
                let bits = self.whole().to_bits();
                f64::from_bits(bits.wrapping_add(self.rng.pick(&[1, u64::MAX, 1 << 63])))
            }
            2 => self.whole() + self.rng.pick(&[0.5, 0.25, -0.125, 1025.0]),
            3 => f64::from_bits(self.rng.pick(&BARE)),
            _ => self.rng.pick(&ODD),
        }
    }
}
