//! Random traces of every kind, the same for the same seed.

pub use super::tape::{Recorder, Tape};

use super::share;
use crate::edition::{Edition, TODAY};
use crate::record::{put, AGED, REQUEST};
use crate::replay::Five;

/// One trace and what a replay must count, where the kind settles it.
#[derive(Clone, Debug)]
pub struct Trace {
    pub kind: String,
    pub expect: Option<Five>,
    pub bytes: Vec<u8>,
}

/// The kinds and how often each is drawn.
const KINDS: [(Kind, usize); 10] = [
    (Kind::Empty, 2),
    (Kind::Good, 20),
    (Kind::Wrong, 30),
    (Kind::Torn, 30),
    (Kind::Cut, 50),
    (Kind::Lengths, 50),
    (Kind::Damaged, 50),
    (Kind::Shifted, 10),
    (Kind::Noise, 20),
    (Kind::Night, 1),
];

#[derive(Clone, Copy, Debug)]
enum Kind {
    /// No byte.
    Empty,
    /// All replies right.
    Good,
    /// Some replies wrong.
    Wrong,
    /// A torn tail.
    Torn,
    /// A trace cut off; all cuts in turn.
    Cut,
    /// A record at either side of a bound of its length.
    Lengths,
    /// Some bytes changed, left out or put in.
    Damaged,
    /// The first record is missing.
    Shifted,
    /// Random bytes.
    Noise,
    /// A long trace.
    Night,
}

/// The stream of traces of one seed.
pub struct Traces {
    recorder: Recorder,
    /// How many traces each kind has given.
    turns: [usize; KINDS.len()],
    /// The trace that is cut, and where next.
    whole: Tape,
    next: usize,
}

impl Traces {
    pub fn new(seed: u64) -> Self {
        Self::of(&TODAY, seed)
    }

    /// Traces that an edition's recorder made.
    pub fn of(edition: &'static Edition, seed: u64) -> Self {
        let mut recorder = Recorder::of(edition, seed);
        Traces {
            whole: recorder.tape(3, 4),
            recorder,
            turns: [0; KINDS.len()],
            next: 0,
        }
    }

    /// The next trace.
    pub fn draw(&mut self) -> Trace {
        let at = share(&mut self.recorder.rng, &KINDS);
        let turn = self.turns[at];
        self.turns[at] += 1;
        match KINDS[at].0 {
            Kind::Empty => known("empty", Tape::default()),
            Kind::Good => known("good", self.tape(0)),
            Kind::Wrong => known("some replies wrong", self.tape(3)),
            Kind::Torn => self.torn(),
            Kind::Cut => self.cut(),
            Kind::Lengths => self.lengths(turn),
            Kind::Damaged => self.damaged(turn),
            Kind::Shifted => self.shifted(),
            Kind::Noise => self.noise(),
            Kind::Night => known("a long night", self.recorder.tape(300, 50)),
        }
    }

    fn below(&mut self, end: usize) -> usize {
        self.recorder.rng.below(end)
    }

    /// A trace of a few pairs, the reply wrong once in `times`.
    fn tape(&mut self, times: usize) -> Tape {
        let count = 1 + self.below(8);
        self.recorder.tape(count, times)
    }

    fn torn(&mut self) -> Trace {
        let count = self.below(5);
        let mut tape = self.recorder.tape(count, 4);
        self.recorder.tear(&mut tape);
        known("torn tail", tape)
    }

    /// A trace is cut after each of its bytes before the next one is taken.
    fn cut(&mut self) -> Trace {
        if self.next > self.whole.bytes.len() {
            self.whole = self.tape(4);
            self.next = 0;
        }
        let cut = self.whole.clone().cut(self.next);
        self.next += 1;
        known("cut", cut)
    }

    /// A pair with a request or a reply of this length among others.
    fn lengths(&mut self, turn: usize) -> Trace {
        const ALL: [usize; 14] = [4, 6, 7, 8, 9, 34, 125, 126, 127, 128, 129, 130, 255, 264];
        let length = ALL[turn / 2 % ALL.len()];
        let count = self.below(3);
        let mut tape = self.recorder.tape(count, 4);
        let odd = self.recorder.random(length);
        let (what, request, reply) = match turn % 2 {
            0 => {
                let mut request = odd;
                put(&mut request, 2, self.recorder.rng.pick(&[REQUEST, AGED]));
                let reply = self.recorder.answered(&request);
                ("request", request, reply)
            }
            _ => ("reply", self.recorder.exchange().0, odd),
        };
        let wrong = reply != self.recorder.answered(&request);
        let [least, most] = self.recorder.lengths();
        if (least..=most).contains(&length) {
            tape.push(&request, &reply, wrong);
            if self.below(2) == 0 {
                let (request, reply) = self.recorder.exchange();
                tape.push(&request, &reply, false);
            }
        } else {
            tape.bytes.extend([request, reply].concat());
            let after = self.below(3);
            tape.bytes.extend(self.recorder.tape(after, 0).bytes);
        }
        known(&format!("{what} of {length} bytes"), tape)
    }

    fn damaged(&mut self, turn: usize) -> Trace {
        let mut bytes = self.tape(6).bytes;
        for _ in 0..1 + self.below(3) {
            let at = self.below(bytes.len());
            let byte = self.recorder.rng.bits() as u8;
            match turn % 4 {
                0 => bytes[at] = byte,
                1 => bytes[at] ^= 1 << (byte % 8),
                2 => bytes.insert(at, byte),
                _ => drop(bytes.remove(at)),
            }
        }
        let what = [
            "a byte changed",
            "a bit changed",
            "a byte put in",
            "a byte left out",
        ];
        unknown(&format!("damaged, {}", what[turn % 4]), bytes)
    }

    fn shifted(&mut self) -> Trace {
        let (_, reply) = self.recorder.exchange();
        let bytes = [reply, self.tape(0).bytes].concat();
        unknown("first record missing", bytes)
    }

    /// Random bytes, the high byte of the first length mostly 0.
    fn noise(&mut self) -> Trace {
        let count = self.below(400);
        let mut bytes: Vec<u8> = (0..count).map(|_| self.recorder.rng.bits() as u8).collect();
        if bytes.len() > 1 && self.below(4) > 0 {
            bytes[1] = 0;
        }
        unknown("random bytes", bytes)
    }
}

fn known(kind: &str, tape: Tape) -> Trace {
    Trace {
        kind: kind.to_string(),
        expect: Some(tape.five()),
        bytes: tape.bytes,
    }
}

fn unknown(kind: &str, bytes: Vec<u8>) -> Trace {
    Trace {
        kind: kind.to_string(),
        expect: None,
        bytes,
    }
}
