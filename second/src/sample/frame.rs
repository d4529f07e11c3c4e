//! Faults put into records that would otherwise be accepted.

use super::fault;
use crate::door::FRAME;
use crate::line::Asked;
use crate::record::{self, put, settle, word, AGED, AGED_HEAD, HEAD};
use crate::refusal::Refusal;
use crate::shape::Shape;
use crate::xorshift::Xorshift;

/// What can be wrong with a record that has a head, in the order in which
/// the door tests it.
#[derive(Clone, Copy, Debug, PartialEq, Eq)]
pub enum Fault {
    Length,
    Kind,
    Form,
    Degree,
    Stale,
    Body,
    Value,
    Parameter,
    Balance,
}

impl Fault {
    /// All nine, in their order.
    pub const ALL: [Fault; 9] = [
        Fault::Length,
        Fault::Kind,
        Fault::Form,
        Fault::Degree,
        Fault::Stale,
        Fault::Body,
        Fault::Value,
        Fault::Parameter,
        Fault::Balance,
    ];

    /// The refusal, where it is one of the composer's; otherwise FRAME.
    pub fn refusal(self) -> Option<Refusal> {
        match self {
            Fault::Length | Fault::Kind | Fault::Body => None,
            Fault::Form => Some(Refusal::Kind),
            Fault::Degree => Some(Refusal::Degree),
            Fault::Stale => Some(Refusal::Stale),
            Fault::Value => Some(Refusal::Value),
            Fault::Parameter => Some(Refusal::Parameter),
            Fault::Balance => Some(Refusal::Balance),
        }
    }

    /// The number that the reply carries.
    pub fn number(self) -> u32 {
        self.refusal().map_or(FRAME.number, Refusal::number)
    }

    /// What is wrong, in a word.
    pub fn name(self) -> &'static str {
        match self {
            Fault::Length => "9 FRAME by length",
            Fault::Kind => "9 FRAME by kind",
            Fault::Form => "1 KIND",
            Fault::Degree => "2 DEGREE",
            Fault::Stale => "10 STALE",
            Fault::Body => "9 FRAME by body",
            Fault::Value => "6 VALUE",
            Fault::Parameter => "7 PARAMETER",
            Fault::Balance => "8 BALANCE",
        }
    }
}

/// Forms that are none, each a byte.
const NO_FORMS: [u32; 10] = [0, 4, 5, 9, 127, 128, 129, 131, 254, 255];

/// Kinds that no request has.
const NO_KINDS: [u16; 12] = [
    0x0000, 0x0003, 0x0004, 0x0100, 0x0101, 0x0200, 0x0102, 0x8000, 0x8001, 0x8002, 0x0180, 0xffff,
];

/// The record of a request: with its age, or mostly without if it is 0.
pub fn write(rng: &mut Xorshift, asked: &Asked) -> Vec<u8> {
    if asked.age == 0 && rng.below(4) > 0 {
        record::request(asked)
    } else {
        record::aged(asked)
    }
}

/// The record of a request of this shape, with each of these faults. The
/// shape itself is beyond the limits if DEGREE is among them.
pub fn spoilt(rng: &mut Xorshift, mut asked: Asked, shape: &Shape, faults: &[Fault]) -> Vec<u8> {
    let alone = faults.len() == 1;
    let has = |fault| faults.contains(&fault);
    let inner = [Fault::Balance, Fault::Parameter, Fault::Value, Fault::Stale];
    for fault in inner {
        if let (true, Some(refusal)) = (has(fault), fault.refusal()) {
            fault::spoil(rng, &mut asked, shape, refusal, alone);
        }
    }
    fit(&mut asked);
    if has(Fault::Form) {
        asked.form = rng.pick(&NO_FORMS);
    }
    let mut record = write(rng, &asked);
    if has(Fault::Body) {
        wrong_body(rng, &mut record, alone);
    }
    if has(Fault::Kind) {
        put(&mut record, 2, rng.pick(&NO_KINDS));
    }
    if has(Fault::Length) {
        wrong_length(rng, &mut record);
    }
    record
}

/// Brings every number to the end of two bytes that it is beyond, if any.
fn fit(asked: &mut Asked) {
    for number in asked.surface.iter_mut().chain(&mut asked.path) {
        *number = (*number).clamp(i32::from(i16::MIN), i32::from(i16::MAX));
    }
}

/// Makes a body too long or, alone, too short; the length stays true.
fn wrong_body(rng: &mut Xorshift, record: &mut Vec<u8>, alone: bool) {
    if alone && rng.once_in(2) {
        let head = if word(record, 2) == AGED {
            AGED_HEAD
        } else {
            HEAD
        };
        let body = record.len() - head;
        let less = rng.pick(&[1, 2, 3, 4, body]).min(body);
        record.truncate(record.len() - less);
    } else {
        let more = rng.pick(&[1, 1, 2, 2, 3, 4, 6, 64]);
        record.extend((0..more).map(|_| rng.bits() as u8));
    }
    settle(record);
}

/// Makes the length of a record other than true.
fn wrong_length(rng: &mut Xorshift, record: &mut [u8]) {
    let length = record.len() as u16;
    let wrong = [
        length - 1,
        length + 1,
        length - HEAD as u16,
        length - 2,
        length + 2,
        length + 256,
        length.swap_bytes(),
        length | 0x8000,
        0,
        u16::MAX,
    ];
    put(record, 0, rng.pick(&wrong));
}

/// Degrees as far as a byte goes: form, first, second, N. In many of them a
/// sum, a count or r·N would come out small in a byte.
const VAST: [[u8; 4]; 22] = [
    [1, 255, 0, 0],
    [1, 0, 255, 1],
    [1, 1, 255, 0],
    [1, 2, 254, 3],
    [1, 128, 0, 2],
    [1, 127, 0, 2],
    [1, 1, 0, 255],
    [1, 4, 0, 64],
    [1, 0, 0, 128],
    [2, 255, 1, 0],
    [2, 1, 255, 1],
    [2, 255, 255, 255],
    [2, 128, 128, 1],
    [2, 252, 8, 3],
    [2, 255, 5, 2],
    [2, 2, 2, 255],
    [2, 0, 0, 127],
    [3, 255, 0, 0],
    [3, 254, 0, 1],
    [3, 2, 254, 0],
    [3, 0, 0, 255],
    [3, 1, 0, 170],
];

/// A record with vast degrees, its body as long as narrow sums would ask.
pub fn vast(rng: &mut Xorshift, turn: usize) -> Vec<u8> {
    let [form, first, second, n] = VAST[turn % VAST.len()];
    let control = match form {
        1 => first.wrapping_add(1),
        2 => first.wrapping_add(1).wrapping_mul(second.wrapping_add(1)),
        _ => first.wrapping_add(1).wrapping_mul(first.wrapping_add(2)) / 2,
    };
    let path = n.wrapping_add(1).wrapping_mul(form);
    let number = rng.between(0, 1024);
    let asked = Asked {
        form: form.into(),
        first: first.into(),
        second: second.into(),
        n: n.into(),
        age: rng.pick(&fault::AGES),
        surface: vec![number; control.min(64).into()],
        path: vec![number; path.min(64).into()],
        rooms: None,
    };
    write(rng, &asked)
}
