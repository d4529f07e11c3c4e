//! Random patches of every kind, for ticket 8 (rule Patches on patches), the same for the same seed.

use crate::patch::indices;
use crate::quantity::{REACH, SCALE};
use crate::xorshift::Xorshift;
use crate::Answer;

/// A patch and the rooms of its two arrays.
#[derive(Clone, Debug)]
pub struct Patch {
    pub outer: u32,
    pub domain: u32,
    pub surface: Vec<i32>,
    pub path: Vec<i32>,
    pub rooms: [usize; 2],
}

/// An answer and both arrays after it.
pub type Answered = (Answer, Vec<i64>, Vec<i32>);

impl Patch {
    /// Has this answered, on arrays that are marked beforehand.
    pub fn answered(
        &self,
        mut patch: impl FnMut(u32, u32, &[i32], &[i32], &mut [i64], &mut [i32]) -> Answer,
    ) -> Answered {
        let [exact, points] = self.rooms;
        let (mut exact, mut points) = (vec![-7; exact], vec![-9; points]);
        let answer = patch(
            self.outer,
            self.domain,
            &self.surface,
            &self.path,
            &mut exact,
            &mut points,
        );
        (answer, exact, points)
    }
}

/// The stream of one seed.
pub struct Patches {
    rng: Xorshift,
    turn: usize,
}

type Fault = (&'static str, fn(&mut Patches, &mut Patch));

/// What may be wrong with a patch, in the order of the refusals.
const FAULTS: [Fault; 7] = [
    ("DEGREE", Patches::spoil_degree),
    ("SURFACE", Patches::spoil_surface),
    ("PATH", Patches::spoil_path),
    ("ROOM", Patches::spoil_room),
    ("VALUE", Patches::spoil_value),
    ("PARAMETER", Patches::spoil_parameter),
    ("BALANCE", Patches::spoil_balance),
];

impl Patches {
    pub fn new(seed: u64) -> Self {
        Patches {
            rng: Xorshift::new(seed),
            turn: 0,
        }
    }

    /// The next patch: all sixteen degrees in turn.
    pub fn draw(&mut self) -> (String, Patch) {
        self.turn += 1;
        let turn = self.turn / 10;
        let mut patch = self.any((turn / 4 % 4, turn % 4));
        let kind = match self.turn % 10 {
            0 => {
                let (name, spoil) = FAULTS[turn % FAULTS.len()];
                spoil(self, &mut patch);
                name
            }
            1 => {
                for (_, spoil) in FAULTS {
                    if self.rng.once_in(3) {
                        spoil(self, &mut patch);
                    }
                }
                "several faults"
            }
            2 => {
                self.ends(&mut patch);
                "numbers at their bounds"
            }
            3 => {
                self.ends(&mut patch);
                for value in &mut patch.surface {
                    *value = self.rng.between(-9, 9);
                }
                "halves"
            }
            _ => "accepted",
        };
        (kind.to_string(), patch)
    }

    /// An accepted patch of these degrees.
    fn any(&mut self, (outer, domain): (usize, usize)) -> Patch {
        let surface = indices(outer)
            .iter()
            .map(|_| self.rng.between(-REACH, REACH))
            .collect();
        let mut path = Vec::new();
        for _ in indices(domain) {
            let x = self.rng.between(0, SCALE);
            let y = self.rng.between(0, SCALE - x);
            path.extend([x, y, SCALE - x - y]);
        }
        let places = indices(outer * domain).len();
        let spare = self.rng.pick(&[0, 0, 1, 55 - places]);
        let rooms = [places + spare, places + self.rng.pick(&[0, 3])];
        Patch {
            outer: outer as u32,
            domain: domain as u32,
            surface,
            path,
            rooms,
        }
    }

    /// Control values at their bounds, all of one sign or mixed, and path
    /// numbers 0, 512 and 1024.
    fn ends(&mut self, patch: &mut Patch) {
        let signs = self.rng.pick(&[[1, 1], [-1, -1], [-1, 1]]);
        for value in &mut patch.surface {
            *value = REACH * self.rng.pick(&signs);
        }
        for point in patch.path.chunks_mut(3) {
            point.fill(0);
            for _ in 0..2 {
                point[self.rng.below(3)] += SCALE / 2;
            }
        }
    }

    fn spoil_degree(&mut self, patch: &mut Patch) {
        let degree = self.rng.pick(&[4, 5, 9, 65_536, 1 << 31, u32::MAX]);
        match self.rng.below(3) {
            0 => patch.outer = degree,
            1 => patch.domain = degree,
            _ => (patch.outer, patch.domain) = (degree, degree),
        }
    }

    fn spoil_surface(&mut self, patch: &mut Patch) {
        let count = patch.surface.len();
        let other = self.rng.pick(&[0, count - 1, count + 1, 64]);
        patch.surface.resize(other, 0);
    }

    fn spoil_path(&mut self, patch: &mut Patch) {
        let count = patch.path.len();
        let other = self
            .rng
            .pick(&[0, count - 3, count - 1, count + 1, count + 3]);
        patch.path.resize(other, 0);
    }

    fn spoil_room(&mut self, patch: &mut Patch) {
        let at = self.rng.below(2);
        let room = patch.rooms[at];
        patch.rooms[at] = self.rng.below(room + 1);
    }

    fn spoil_value(&mut self, patch: &mut Patch) {
        let value = self.rng.pick(&[4097, -4097, i32::MIN, i32::MAX]);
        spoil(&mut self.rng, &mut patch.surface, value);
    }

    fn spoil_parameter(&mut self, patch: &mut Patch) {
        let number = self.rng.pick(&[1025, -1, i32::MIN, i32::MAX]);
        spoil(&mut self.rng, &mut patch.path, number);
    }

    fn spoil_balance(&mut self, patch: &mut Patch) {
        let number = self.rng.between(0, SCALE);
        spoil(&mut self.rng, &mut patch.path, number);
    }
}

/// Changes one number, if there is one.
fn spoil(rng: &mut Xorshift, numbers: &mut [i32], number: i32) {
    if !numbers.is_empty() {
        numbers[rng.below(numbers.len())] = number;
    }
}
