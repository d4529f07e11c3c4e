//! Random request lines of every kind, the same for the same seed.

pub mod cards;
mod draft;
mod fault;
mod frame;
pub mod lines;
pub mod longs;
pub mod patches;
pub mod records;
mod tape;
mod text;
pub mod ticks;
pub mod torn;
pub mod traces;

use crate::edition::{Edition, TODAY};
use crate::line::{read, Asked};
use crate::refusal::Refusal;
use crate::request::MOST_AGE;
use crate::shape::{Form, Shape};
use crate::xorshift::Xorshift;

/// An accepted request of an edition: any legal shape, legal numbers, age 0.
pub fn accepted(rng: &mut Xorshift, edition: &Edition) -> Asked {
    let shape = rng.pick(&draft::legal_shapes(edition));
    draft::any(rng, &shape)
}

/// What a sample must be answered.
#[derive(Clone, Copy, Debug, PartialEq, Eq)]
pub enum Expect {
    /// An answer with this number.
    Number(u32),
    /// The line cannot be read.
    Unreadable,
}

/// One request line, its kind and what it must be answered.
#[derive(Clone, Debug)]
pub struct Sample {
    pub kind: String,
    pub expect: Expect,
    pub line: Vec<u8>,
}

/// The kinds and how often each is drawn.
const KINDS: [(Kind, usize); 13] = [
    (Kind::Accepted, 30),
    (Kind::Extreme, 10),
    (Kind::Halves, 6),
    (Kind::Bound, 8),
    (Kind::Alone, 14),
    (Kind::Pair, 14),
    (Kind::Several, 4),
    (Kind::Counts, 5),
    (Kind::Huge, 5),
    (Kind::Ages, 12),
    (Kind::Rooms, 7),
    (Kind::Odd, 3),
    (Kind::Unreadable, 4),
];

#[derive(Clone, Copy, Debug)]
enum Kind {
    /// Every form and all legal degrees.
    Accepted,
    /// Control values and path numbers at the ends of their bounds.
    Extreme,
    /// Points that often lie half-way between two whole numbers.
    Halves,
    /// On the good side of one refusal's bound.
    Bound,
    /// One refusal by itself.
    Alone,
    /// Two refusals at once: the order decides.
    Pair,
    /// Any number of refusals at once.
    Several,
    /// Wrong counts of control values or path numbers.
    Counts,
    /// Huge degrees, also such that a narrow sum or product would wrap.
    Huge,
    /// Ages at both sides of the bound, with each other refusal and with none.
    Ages,
    /// Rooms short, exact and long.
    Rooms,
    /// Readable, though not as one would write it.
    Odd,
    /// Not readable.
    Unreadable,
}

/// The stream of samples of one seed.
pub struct Sampler {
    rng: Xorshift,
    shapes: Vec<Shape>,
    /// How many samples each kind has given; each goes through its variants
    /// in turn.
    turns: [usize; KINDS.len()],
    /// The mirror that is to come next.
    mirror: Option<Sample>,
}

impl Sampler {
    pub fn new(seed: u64) -> Self {
        Sampler {
            rng: Xorshift::new(seed),
            shapes: draft::legal_shapes(&TODAY),
            turns: [0; KINDS.len()],
            mirror: None,
        }
    }

    /// Now and then a line that is passed over, to stand before a sample.
    pub fn aside(&mut self) -> Option<&'static [u8]> {
        self.rng
            .once_in(40)
            .then(|| self.rng.pick(&text::PASSED_OVER))
    }

    /// The next sample. Right after each accepted request its mirror comes.
    pub fn draw(&mut self) -> Sample {
        if let Some(mirror) = self.mirror.take() {
            return mirror;
        }
        let sample = self.fresh();
        if sample.expect == Expect::Number(0) {
            let asked = read(&sample.line).expect("an accepted request is readable");
            self.mirror = Some(Sample {
                kind: format!("mirror of {}", sample.kind),
                expect: sample.expect,
                line: asked.mirrored().line().into_bytes(),
            });
        }
        sample
    }

    /// The next sample that is no mirror.
    fn fresh(&mut self) -> Sample {
        let at = share(&mut self.rng, &KINDS);
        let turn = self.turns[at];
        self.turns[at] += 1;
        match KINDS[at].0 {
            Kind::Accepted => self.accepted(turn),
            Kind::Extreme => self.extreme(turn),
            Kind::Halves => self.halves(),
            Kind::Bound => self.bound(turn),
            Kind::Alone => self.alone(turn),
            Kind::Pair => self.pair(turn),
            Kind::Several => self.several(),
            Kind::Counts => self.counts(turn),
            Kind::Huge => self.huge(turn),
            Kind::Ages => self.ages(turn),
            Kind::Rooms => self.rooms(turn),
            Kind::Odd => self.odd(turn),
            Kind::Unreadable => self.unreadable(turn),
        }
    }

    /// Any legal shape.
    fn any_shape(&mut self) -> Shape {
        self.rng.pick(&self.shapes)
    }

    /// Any legal shape of this form.
    fn any_shape_of(&mut self, form: Form) -> Shape {
        loop {
            let shape = self.any_shape();
            if shape.form == form {
                return shape;
            }
        }
    }

    /// A request of this shape with legal numbers and a legal age.
    fn any_asked(&mut self, shape: &Shape) -> Asked {
        let mut asked = draft::any(&mut self.rng, shape);
        asked.age = draft::age(&mut self.rng);
        asked
    }

    fn accepted(&mut self, turn: usize) -> Sample {
        let shape = self.shapes[turn % self.shapes.len()];
        let mut asked = self.any_asked(&shape);
        if self.rng.once_in(4) {
            asked.rooms = Some(draft::long_rooms(&mut self.rng, &shape));
        }
        let form = asked.form;
        sample(format!("accepted, form {form}"), 0, &asked)
    }

    fn extreme(&mut self, turn: usize) -> Sample {
        let pattern = turn % draft::PATTERNS.len();
        let shape = self.shapes[turn / draft::PATTERNS.len() % self.shapes.len()];
        let mut asked = draft::extreme(&mut self.rng, &shape, pattern);
        asked.age = draft::age(&mut self.rng);
        sample(format!("extreme, {}", draft::PATTERNS[pattern]), 0, &asked)
    }

    fn halves(&mut self) -> Sample {
        let shape = loop {
            let shape = self.any_shape();
            if (1..=2).contains(&shape.arguments()) {
                break shape;
            }
        };
        let asked = draft::halves(&mut self.rng, &shape);
        sample("halves".to_string(), 0, &asked)
    }

    fn bound(&mut self, turn: usize) -> Sample {
        let refusal = Refusal::ALL[turn % Refusal::ALL.len()];
        let shape = match refusal {
            Refusal::Degree => loop {
                let shape = self.any_shape();
                if shape.arguments() == 4 || shape.path_degree == TODAY.most_path_degree {
                    break shape;
                }
            },
            Refusal::Balance => self.any_shape_of(Form::Triangle),
            _ => self.any_shape(),
        };
        let mut asked = self.any_asked(&shape);
        fault::touch(&mut self.rng, &mut asked, &shape, refusal);
        sample(format!("at the bound of {}", title(refusal)), 0, &asked)
    }

    fn alone(&mut self, turn: usize) -> Sample {
        let refusal = Refusal::ALL[turn % Refusal::ALL.len()];
        let asked = self.spoilt(&[refusal]);
        sample(
            format!("alone {}", title(refusal)),
            refusal.number(),
            &asked,
        )
    }

    fn pair(&mut self, turn: usize) -> Sample {
        let pairs: Vec<[Refusal; 2]> = (0..Refusal::ALL.len())
            .flat_map(|high| (0..high).map(move |low| [Refusal::ALL[low], Refusal::ALL[high]]))
            .collect();
        let [low, high] = pairs[turn % pairs.len()];
        let asked = self.spoilt(&[low, high]);
        let kind = format!("pair {} with {}", title(low), title(high));
        sample(kind, low.number(), &asked)
    }

    fn several(&mut self) -> Sample {
        let faults: Vec<Refusal> = loop {
            let faults: Vec<Refusal> = Refusal::ALL
                .into_iter()
                .filter(|_| self.rng.once_in(2))
                .collect();
            if faults.len() > 2 {
                break faults;
            }
        };
        let asked = self.spoilt(&faults);
        sample("several at once".to_string(), faults[0].number(), &asked)
    }

    /// A request with each of these faults, in the order of the refusals.
    fn spoilt(&mut self, faults: &[Refusal]) -> Asked {
        let form = if faults.contains(&Refusal::Balance) {
            Form::Triangle
        } else {
            self.rng.pick(&[Form::Curve, Form::Tensor, Form::Triangle])
        };
        let shape = if faults.contains(&Refusal::Degree) {
            fault::shape_beyond(&mut self.rng, form)
        } else {
            self.any_shape_of(form)
        };
        let mut asked = self.any_asked(&shape);
        for &refusal in faults.iter().rev() {
            fault::spoil(
                &mut self.rng,
                &mut asked,
                &shape,
                refusal,
                faults.len() == 1,
            );
        }
        asked
    }

    fn counts(&mut self, turn: usize) -> Sample {
        let shape = self.any_shape();
        let mut asked = self.any_asked(&shape);
        let (refusal, list) = match turn % 2 {
            0 => (Refusal::Surface, &mut asked.surface),
            _ => (Refusal::Path, &mut asked.path),
        };
        let right = list.len();
        let (name, wrong) = match turn / 2 % 5 {
            0 => ("none", 0),
            1 => ("one less", right - 1),
            2 => ("one more", right + 1),
            3 => ("most", 64),
            _ => ("any", (right + 1 + self.rng.below(64)) % 65),
        };
        list.resize(wrong, 0);
        let kind = format!("count for {}, {name}", title(refusal));
        sample(kind, refusal.number(), &asked)
    }

    fn huge(&mut self, turn: usize) -> Sample {
        let asked = fault::huge(&mut self.rng, turn);
        sample("huge degrees".to_string(), Refusal::Degree.number(), &asked)
    }

    fn ages(&mut self, turn: usize) -> Sample {
        let age = fault::AGES[turn % fault::AGES.len()];
        let others = Refusal::ALL.len();
        // STALE itself stands for no other refusal.
        let other = match Refusal::ALL[turn / fault::AGES.len() % others] {
            Refusal::Stale => None,
            other => Some(other),
        };
        let mut asked = match other {
            Some(other) => self.spoilt(&[other]),
            None => {
                let shape = self.any_shape();
                self.any_asked(&shape)
            }
        };
        asked.age = age;
        let number = match other {
            Some(first @ (Refusal::Kind | Refusal::Degree)) => first.number(),
            _ if age > MOST_AGE => Refusal::Stale.number(),
            Some(later) => later.number(),
            None => 0,
        };
        let with = other.map_or("none".to_string(), title);
        sample(format!("age {age} with {with}"), number, &asked)
    }

    fn rooms(&mut self, turn: usize) -> Sample {
        let shape = self.any_shape();
        let mut asked = self.any_asked(&shape);
        let length = shape.length();
        let (name, rooms) = match turn % 10 {
            0 => ("numerators short by one", (length, 64)),
            1 => ("points short by one", (64, length)),
            2 => ("both short by one", (length, length)),
            3 => ("exact", (length + 1, length + 1)),
            4 => ("one longer", (length + 2, length + 2)),
            5 => ("long", draft::long_rooms(&mut self.rng, &shape)),
            6 => ("none", (0, 0)),
            7 => ("none for numerators", (0, 64)),
            8 => ("none for points", (64, 0)),
            _ => ("most", (64, 64)),
        };
        asked.rooms = Some(rooms);
        let short = rooms.0.min(rooms.1) <= length;
        let number = if short { Refusal::Room.number() } else { 0 };
        sample(format!("rooms, {name}"), number, &asked)
    }

    fn odd(&mut self, turn: usize) -> Sample {
        let shape = self.any_shape_of(Form::Curve);
        let asked = draft::any(&mut self.rng, &shape);
        let (name, line) = text::odd(&mut self.rng, &asked, turn);
        Sample {
            kind: format!("odd but readable, {name}"),
            expect: Expect::Number(0),
            line,
        }
    }

    fn unreadable(&mut self, turn: usize) -> Sample {
        let shape = self.any_shape();
        let asked = draft::any(&mut self.rng, &shape);
        let (name, line) = text::unreadable(&mut self.rng, &asked, turn);
        Sample {
            kind: format!("unreadable, {name}"),
            expect: Expect::Unreadable,
            line,
        }
    }
}

/// The place in a table of shares on which a draw falls.
fn share<T>(rng: &mut Xorshift, table: &[(T, usize)]) -> usize {
    let mut left = rng.below(table.iter().map(|(_, share)| share).sum());
    let mut at = 0;
    while left >= table[at].1 {
        left -= table[at].1;
        at += 1;
    }
    at
}

/// A refusal's number and name.
fn title(refusal: Refusal) -> String {
    format!("{} {}", refusal.number(), refusal.name())
}

fn sample(kind: String, number: u32, asked: &Asked) -> Sample {
    Sample {
        kind,
        expect: Expect::Number(number),
        line: asked.line().into_bytes(),
    }
}
