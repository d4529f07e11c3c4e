//! Random request records of every kind, the same for the same seed.

use super::frame::{self, Fault};
use super::{draft, fault, share};
use crate::door::{door, FRAME, ROOM};
use crate::edition::TODAY;
use crate::line::Asked;
use crate::record::{put, settle, word, AGED, AGED_HEAD, HEAD, REQUEST};
use crate::refusal::Refusal;
use crate::request::MOST_AGE;
use crate::shape::{Form, Shape};
use crate::xorshift::Xorshift;
use crate::Request;

/// One request record and the room lent for its reply.
#[derive(Clone, Debug)]
pub struct Record {
    pub kind: String,
    /// The number that must be answered when there is room, where the kind
    /// settles it.
    pub expect: Option<u32>,
    pub bytes: Vec<u8>,
    pub room: usize,
}

/// The kinds and how often each is drawn.
const KINDS: [(Kind, usize); 16] = [
    (Kind::Good, 200),
    (Kind::Changed, 260),
    (Kind::Swapped, 30),
    (Kind::Cut, 60),
    (Kind::Longer, 50),
    (Kind::Noise, 50),
    (Kind::Headed, 50),
    (Kind::Edges, 80),
    (Kind::Bound, 60),
    (Kind::Short, 40),
    (Kind::Ages, 90),
    (Kind::Alone, 90),
    (Kind::Pair, 110),
    (Kind::Several, 30),
    (Kind::Vast, 30),
    (Kind::Endless, 2),
];

#[derive(Clone, Copy, Debug)]
enum Kind {
    /// Accepted; every form and all legal degrees.
    Good,
    /// A good record with one byte changed; all changes in turn.
    Changed,
    /// A good record with the kind of the other request.
    Swapped,
    /// A good record cut off, its length kept or made true; all cuts in turn.
    Cut,
    /// A good record with bytes after it, its length kept or made true.
    Longer,
    /// Random bytes.
    Noise,
    /// Random bytes after a true length and the kind of a request.
    Headed,
    /// A good record with some numbers at or beyond their bounds.
    Edges,
    /// On the good side of one refusal's bound.
    Bound,
    /// Fewer than 8 bytes, or fewer than 10 where an age is to be carried.
    Short,
    /// Ages at both sides of the bound, with each other fault and with none.
    Ages,
    /// One fault by itself.
    Alone,
    /// Two faults at once: the order decides.
    Pair,
    /// More than two faults at once.
    Several,
    /// Degrees as far as a byte goes.
    Vast,
    /// Longer than two bytes can tell, or just not.
    Endless,
}

/// A record's kind, the number it must be answered, and its bytes.
type Draft = (String, Option<u32>, Vec<u8>);

/// A good record and the next step of the walk over its variants.
#[derive(Default)]
struct Walk {
    good: Vec<u8>,
    step: usize,
}

/// The stream of records of one seed.
pub struct Records {
    rng: Xorshift,
    shapes: Vec<Shape>,
    /// How many records each kind has given.
    turns: [usize; KINDS.len()],
    changes: Walk,
    cuts: Walk,
}

impl Records {
    pub fn new(seed: u64) -> Self {
        Records {
            rng: Xorshift::new(seed),
            shapes: draft::legal_shapes(&TODAY),
            turns: [0; KINDS.len()],
            changes: Walk::default(),
            cuts: Walk::default(),
        }
    }

    /// The next record.
    pub fn draw(&mut self) -> Record {
        let at = share(&mut self.rng, &KINDS);
        let turn = self.turns[at];
        self.turns[at] += 1;
        let (kind, expect, bytes) = match KINDS[at].0 {
            Kind::Good => self.good(turn),
            Kind::Changed => self.changed(),
            Kind::Swapped => self.swapped(),
            Kind::Cut => self.cut(),
            Kind::Longer => self.longer(turn),
            Kind::Noise => self.noise(),
            Kind::Headed => self.headed(),
            Kind::Edges => self.edges(),
            Kind::Bound => self.bound(turn),
            Kind::Short => self.short(turn),
            Kind::Ages => self.ages(turn),
            Kind::Alone => self.alone(turn),
            Kind::Pair => self.pair(turn),
            Kind::Several => self.several(),
            Kind::Vast => self.vast(turn),
            Kind::Endless => self.endless(turn),
        };
        let expect = if is_ageless(&bytes) {
            Some(Refusal::Stale.number())
        } else {
            expect
        };
        let room = self.room(&bytes);
        Record {
            kind,
            expect,
            bytes,
            room,
        }
    }

    /// A room for the reply: none, one byte short, least, just as long as
    /// this reply, or long. Mostly it is enough.
    fn room(&mut self, bytes: &[u8]) -> usize {
        match self.rng.below(24) {
            0 => 0,
            1 => ROOM - 1,
            2 => self.rng.below(ROOM),
            3 => door(bytes, &mut [0; ROOM]),
            4..=11 => ROOM,
            12 => ROOM + 1,
            13 => 1024,
            _ => ROOM + self.rng.below(100),
        }
    }

    /// Any legal shape.
    fn any_shape(&mut self) -> Shape {
        self.rng.pick(&self.shapes)
    }

    /// Any legal shape of this form.
    fn any_shape_of(&mut self, form: Form) -> Shape {
        loop {
            let shape = self.any_shape();
            if shape.form == form {
                return shape;
            }
        }
    }

    /// Any accepted request of this shape.
    fn any_asked(&mut self, shape: &Shape) -> Asked {
        let mut asked = match self.rng.below(4) {
            0 => {
                let pattern = self.rng.below(draft::PATTERNS.len());
                draft::extreme(&mut self.rng, shape, pattern)
            }
            1 => draft::halves(&mut self.rng, shape),
            _ => draft::any(&mut self.rng, shape),
        };
        asked.age = draft::age(&mut self.rng);
        asked
    }

    /// Any good record.
    fn any_good(&mut self) -> Vec<u8> {
        let shape = self.any_shape();
        let asked = self.any_asked(&shape);
        frame::write(&mut self.rng, &asked)
    }

    fn good(&mut self, turn: usize) -> Draft {
        let shape = self.shapes[turn % self.shapes.len()];
        let asked = self.any_asked(&shape);
        let bytes = frame::write(&mut self.rng, &asked);
        let kind = format!("good, kind {}, form {}", bytes[2], asked.form);
        (kind, Some(0), bytes)
    }

    /// One byte of a good record is changed. Each byte is changed in all its
    /// 255 ways before the next good record is taken.
    fn changed(&mut self) -> Draft {
        if self.changes.step == 255 * self.changes.good.len() {
            self.changes = Walk {
                good: self.any_good(),
                step: 0,
            };
        }
        let mut bytes = self.changes.good.clone();
        let at = self.changes.step % bytes.len();
        bytes[at] ^= 1 + (self.changes.step / bytes.len()) as u8;
        self.changes.step += 1;
        let aged = word(&self.changes.good, 2) == AGED;
        let (what, expect) = match at {
            0..=1 => ("length", Some(FRAME.number)),
            2..=3 if [REQUEST, AGED].contains(&word(&bytes, 2)) => {
                return other_request(bytes);
            }
            2..=3 => ("kind", Some(FRAME.number)),
            4 => ("form", None),
            5..=7 => ("degree", None),
            8..=9 if aged => {
                let stale = word(&bytes, HEAD) > MOST_AGE;
                let number = if stale { Refusal::Stale.number() } else { 0 };
                ("age", Some(number))
            }
            _ => ("number", None),
        };
        (format!("changed, {what}"), expect, bytes)
    }

    fn swapped(&mut self) -> Draft {
        let mut bytes = self.any_good();
        let kind = word(&bytes, 2);
        put(&mut bytes, 2, REQUEST + AGED - kind);
        other_request(bytes)
    }

    /// A good record is cut at each byte, its length kept and made true.
    fn cut(&mut self) -> Draft {
        if self.cuts.step == 2 * self.cuts.good.len() {
            self.cuts = Walk {
                good: self.any_good(),
                step: 0,
            };
        }
        let mut bytes = self.cuts.good.clone();
        bytes.truncate(self.cuts.step / 2);
        let settled = self.cuts.step % 2 == 1;
        self.cuts.step += 1;
        let kind = format!("cut, {}", length(&mut bytes, settled));
        (kind, Some(FRAME.number), bytes)
    }

    fn longer(&mut self, turn: usize) -> Draft {
        let mut bytes = self.any_good();
        for _ in 0..=turn / 2 % 70 {
            bytes.push(self.rng.bits() as u8);
        }
        let kind = format!("longer, {}", length(&mut bytes, turn % 2 == 1));
        (kind, Some(FRAME.number), bytes)
    }

    /// Random bytes, 0 to 130 of them.
    fn random(&mut self) -> Vec<u8> {
        let count = self.rng.below(131);
        (0..count).map(|_| self.rng.bits() as u8).collect()
    }

    fn noise(&mut self) -> Draft {
        ("random bytes".to_string(), None, self.random())
    }

    fn headed(&mut self) -> Draft {
        let mut bytes = self.random();
        bytes.resize(bytes.len().max(4), 0);
        settle(&mut bytes);
        put(&mut bytes, 2, self.rng.pick(&[REQUEST, AGED]));
        for at in 4..bytes.len().min(HEAD) {
            if self.rng.below(4) > 0 {
                bytes[at] = self.rng.below(5) as u8;
            }
        }
        if bytes.len() >= AGED_HEAD && self.rng.once_in(2) {
            put(&mut bytes, HEAD, self.rng.pick(&fault::AGES));
        }
        ("random after a true head".to_string(), None, bytes)
    }

    fn edges(&mut self) -> Draft {
        let shape = self.any_shape();
        let mut asked = self.any_asked(&shape);
        let edges = [
            -1, 0, 1, 1023, 1024, 1025, 4095, 4096, 4097, -4095, -4096, -4097, -32768, 32767, 255,
            256,
        ];
        let count = asked.surface.len();
        for _ in 0..1 + self.rng.below(3) {
            let at = self.rng.below(count + asked.path.len());
            let edge = self.rng.pick(&edges);
            match at.checked_sub(count) {
                None => asked.surface[at] = edge,
                Some(at) => asked.path[at] = edge,
            }
        }
        if self.rng.once_in(4) {
            asked.age = self.rng.pick(&fault::AGES);
        }
        let bytes = frame::write(&mut self.rng, &asked);
        ("numbers at their edges".to_string(), None, bytes)
    }

    fn bound(&mut self, turn: usize) -> Draft {
        let fault = Fault::ALL[turn % Fault::ALL.len()];
        let shape = match fault {
            Fault::Degree => loop {
                let shape = self.any_shape();
                if shape.arguments() == 4 || shape.path_degree == TODAY.most_path_degree {
                    break shape;
                }
            },
            Fault::Balance => self.any_shape_of(Form::Triangle),
            _ => self.any_shape(),
        };
        let mut asked = self.any_asked(&shape);
        if let Some(refusal) = fault.refusal() {
            fault::touch(&mut self.rng, &mut asked, &shape, refusal);
        }
        let kind = format!("at the bound of {}", fault.name());
        (kind, Some(0), frame::write(&mut self.rng, &asked))
    }

    /// Too short to be a request, whatever the form and the degrees are.
    fn short(&mut self, turn: usize) -> Draft {
        let mut bytes = self.any_good();
        let head = if word(&bytes, 2) == AGED {
            AGED_HEAD
        } else {
            HEAD
        };
        bytes.truncate(turn / 2 % head);
        if bytes.len() > 4 && self.rng.once_in(2) {
            let at = 4 + self.rng.below(bytes.len() - 4);
            bytes[at] = self.rng.bits() as u8;
        }
        let what = length(&mut bytes, turn % 2 == 1);
        let kind = format!("short, {} bytes, {what}", bytes.len());
        (kind, Some(FRAME.number), bytes)
    }

    fn ages(&mut self, turn: usize) -> Draft {
        let age = fault::AGES[turn % fault::AGES.len()];
        // STALE itself stands for no other fault.
        let other = match Fault::ALL[turn / fault::AGES.len() % Fault::ALL.len()] {
            Fault::Stale => None,
            other => Some(other),
        };
        let faults: Vec<Fault> = other.into_iter().collect();
        let bytes = self.spoilt_at(age, &faults);
        let stale = age > MOST_AGE;
        let number = match other {
            Some(first @ (Fault::Length | Fault::Kind | Fault::Form | Fault::Degree)) => {
                first.number()
            }
            _ if stale => Refusal::Stale.number(),
            Some(later) => later.number(),
            None => 0,
        };
        let with = other.map_or("none", Fault::name);
        (format!("age {age} with {with}"), Some(number), bytes)
    }

    fn alone(&mut self, turn: usize) -> Draft {
        let fault = Fault::ALL[turn % Fault::ALL.len()];
        let bytes = self.spoilt(&[fault]);
        let kind = format!("alone {}", fault.name());
        (kind, Some(fault.number()), bytes)
    }

    fn pair(&mut self, turn: usize) -> Draft {
        let pairs: Vec<[Fault; 2]> = (0..Fault::ALL.len())
            .flat_map(|high| (0..high).map(move |low| [Fault::ALL[low], Fault::ALL[high]]))
            .collect();
        let [low, high] = pairs[turn % pairs.len()];
        let bytes = self.spoilt(&[low, high]);
        let kind = format!("pair {} with {}", low.name(), high.name());
        (kind, Some(low.number()), bytes)
    }

    fn several(&mut self) -> Draft {
        let faults: Vec<Fault> = loop {
            let faults: Vec<Fault> = Fault::ALL
                .into_iter()
                .filter(|_| self.rng.once_in(2))
                .collect();
            if faults.len() > 2 {
                break faults;
            }
        };
        let bytes = self.spoilt(&faults);
        let kind = "several at once".to_string();
        (kind, Some(faults[0].number()), bytes)
    }

    /// A record with each of these faults, in their order.
    fn spoilt(&mut self, faults: &[Fault]) -> Vec<u8> {
        let age = draft::age(&mut self.rng);
        self.spoilt_at(age, faults)
    }

    /// The same at this age, unless STALE is among the faults.
    fn spoilt_at(&mut self, age: u16, faults: &[Fault]) -> Vec<u8> {
        let form = if faults.contains(&Fault::Balance) {
            Form::Triangle
        } else {
            self.rng.pick(&[Form::Curve, Form::Tensor, Form::Triangle])
        };
        let shape = if faults.contains(&Fault::Degree) {
            fault::shape_beyond(&mut self.rng, form)
        } else {
            self.any_shape_of(form)
        };
        let mut asked = draft::any(&mut self.rng, &shape);
        asked.age = age;
        frame::spoilt(&mut self.rng, asked, &shape, faults)
    }

    fn vast(&mut self, turn: usize) -> Draft {
        let bytes = frame::vast(&mut self.rng, turn);
        let number = Refusal::Degree.number();
        ("vast degrees".to_string(), Some(number), bytes)
    }

    fn endless(&mut self, turn: usize) -> Draft {
        let mut bytes = self.any_good();
        let short = bytes.len();
        let (name, count) = match turn % 4 {
            0 => ("2^16 bytes and its own length besides", (1 << 16) + short),
            1 => ("2^16 bytes", 1 << 16),
            2 => ("as long as can be told", (1 << 16) - 1),
            _ => ("as long as can be told, but 1", (1 << 16) - 2),
        };
        bytes.resize(count, 0);
        put(&mut bytes, 0, count as u16);
        (format!("endless, {name}"), Some(FRAME.number), bytes)
    }
}

/// Whether it is told STALE for want of an age: a whole request of the kind
/// that carries none, with a form and degrees that are legal.
fn is_ageless(bytes: &[u8]) -> bool {
    if bytes.len() < HEAD || usize::from(word(bytes, 0)) != bytes.len() {
        return false;
    }
    let [form, first, second, n] = [4, 5, 6, 7].map(|at| u32::from(bytes[at]));
    let request = Request {
        form,
        first,
        second,
        n,
        age: 0,
        surface: &[],
        path: &[],
    };
    TODAY.ageless.is_none() && word(bytes, 2) == REQUEST && request.shape(&TODAY).is_ok()
}

/// A good record to which the kind of the other request was given: its body
/// is too long or too short by the age, but an age that was a control value
/// may come before.
fn other_request(bytes: Vec<u8>) -> Draft {
    let stale = word(&bytes, 2) == AGED && word(&bytes, HEAD) > MOST_AGE;
    let number = if stale {
        Refusal::Stale.number()
    } else {
        FRAME.number
    };
    ("kind of the other request".to_string(), Some(number), bytes)
}

/// Makes the length of these bytes true if wanted, as far as there is room
/// for it, and tells what was done.
fn length(bytes: &mut [u8], settled: bool) -> &'static str {
    if settled && bytes.len() >= 2 {
        settle(bytes);
    }
    if settled {
        "length made true"
    } else {
        "length kept"
    }
}

#[cfg(test)]
mod tests {
    use super::Records;
    use std::collections::BTreeSet;

    #[test]
    fn every_change_of_a_byte_comes_once() {
        let mut records = Records::new(5);
        for _ in 0..3 {
            let (_, _, bytes) = records.changed();
            let good = records.changes.good.clone();
            let mut all = BTreeSet::from([bytes]);
            for _ in 1..255 * good.len() {
                all.insert(records.changed().2);
            }
            assert_eq!(records.changes.good, good);
            assert_eq!(all.len(), 255 * good.len());
            for bytes in all {
                let other = bytes.iter().zip(&good).filter(|(a, b)| a != b);
                assert_eq!((bytes.len(), other.count()), (good.len(), 1));
            }
        }
    }

    #[test]
    fn every_cut_comes() {
        let mut records = Records::new(6);
        let first = records.cut().2;
        let good = records.cuts.good.clone();
        let mut counts = vec![first.len()];
        for _ in 1..2 * good.len() {
            counts.push(records.cut().2.len());
        }
        let all: Vec<usize> = (0..good.len()).flat_map(|count| [count, count]).collect();
        assert_eq!(counts, all);
    }
}
