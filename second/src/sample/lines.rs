//! Lines of every kind, mixed: rides, and now and then a net to be read at a
//! tick, or a patch. The same for the same seed.

use super::patches::Patches;
use super::text::{far_signed, zeros, NO_NUMBERS};
use super::ticks::Ticks;
use super::{Expect, Sample, Sampler};
use crate::line::{LONGEST, MOST};
use crate::patch_line::{Piece, OWN_ROOM};
use crate::tick::tick;
use crate::tick_line::Net;
use crate::xorshift::Xorshift;

/// The stream of one seed.
pub struct Lines {
    rides: Sampler,
    ticks: Ticks,
    patches: Patches,
    rng: Xorshift,
    /// How many tick lines and patch lines there have been.
    turns: [usize; 2],
}

impl Lines {
    pub fn new(seed: u64) -> Self {
        Lines {
            rides: Sampler::new(seed),
            ticks: Ticks::new(seed),
            patches: Patches::new(seed),
            rng: Xorshift::new(!seed),
            turns: [0; 2],
        }
    }

    /// Now and then a line that is passed over, to stand before a sample.
    pub fn aside(&mut self) -> Option<&'static [u8]> {
        self.rides.aside()
    }

    pub fn draw(&mut self) -> Sample {
        match self.rng.below(16) {
            0 | 1 => self.tick(),
            2 => self.patch(),
            _ => self.rides.draw(),
        }
    }

    fn tick(&mut self) -> Sample {
        let (kind, (points, k)) = self.ticks.draw();
        let net = Net { points, k };
        let read = net.points.len() <= MOST as usize;
        let expect = match read {
            true => Expect::Number(tick(&net.points, k).number),
            false => Expect::Unreadable,
        };
        self.turns[0] += 1;
        self.written("tick", kind, expect, &net.line(), self.turns[0], unreadable)
    }

    fn patch(&mut self) -> Sample {
        let (kind, patch) = self.patches.draw();
        let most = MOST as usize;
        let [exact, points] = patch.rooms.map(|room| room.min(most));
        let rooms = match (exact, points) {
            (OWN_ROOM, OWN_ROOM) => None,
            rooms => Some(rooms),
        };
        let piece = Piece {
            outer: patch.outer,
            domain: patch.domain,
            surface: patch.surface,
            path: patch.path,
            rooms,
        };
        let expect = match piece.surface.len().max(piece.path.len()) > most {
            true => Expect::Unreadable,
            false => Expect::Number(piece.answered().0.number),
        };
        self.turns[1] += 1;
        self.written(
            "patch",
            kind,
            expect,
            &piece.line(),
            self.turns[1],
            unreadable_patch,
        )
    }

    /// A line as it is, or oddly written, or spoilt.
    fn written(
        &mut self,
        word: &str,
        kind: String,
        expect: Expect,
        line: &str,
        turn: usize,
        spoil: impl Fn(&mut Xorshift, Vec<Vec<u8>>, usize) -> (&'static str, Vec<u8>),
    ) -> Sample {
        let words = line.split(' ').map(|word| word.as_bytes().to_vec());
        let words: Vec<Vec<u8>> = words.collect();
        let (name, expect, line) = match turn % 12 {
            0 => {
                let (name, line) = odd(&mut self.rng, words, turn / 12);
                (format!("odd but readable, {name}"), expect, line)
            }
            1 => {
                let (name, line) = spoil(&mut self.rng, words, turn / 12);
                (format!("unreadable, {name}"), Expect::Unreadable, line)
            }
            _ => (kind, expect, words.join(&b' ')),
        };
        Sample {
            kind: format!("{word}, {name}"),
            expect,
            line,
        }
    }
}

/// An oddly written line that reads as these words, and its name.
fn odd(rng: &mut Xorshift, mut words: Vec<Vec<u8>>, turn: usize) -> (&'static str, Vec<u8>) {
    let at = rng.below(words.len());
    match turn % 5 {
        0 => ("tabs", words.join(&b'\t')),
        1 => {
            words.insert(0, Vec::new());
            words.push(b"\t ".to_vec());
            ("blanks around", words.join(&b' '))
        }
        2 => {
            words[1..].iter_mut().for_each(|word| zeros(word, 1 + at));
            ("zeros in front", words.join(&b' '))
        }
        3 => ("carriage returns", words.join(&b"\r"[..])),
        _ => {
            let spare = LONGEST - words.join(&b' ').len();
            words[at].extend(vec![b' '; spare]);
            ("just as long as may be", words.join(&b' '))
        }
    }
}

/// A line that cannot be read, and its name.
fn unreadable(rng: &mut Xorshift, mut words: Vec<Vec<u8>>, turn: usize) -> (&'static str, Vec<u8>) {
    let last = words.len() - 1;
    let (name, at, wrong): (_, usize, &[u8]) = match turn % 9 {
        0 => {
            let names: [&[u8]; 6] = [b"ticks", b"tic", b"Tick", b"tick:", b"tick=", b"0tick"];
            ("another word", 0, rng.pick(&names))
        }
        1 => ("no number", 1 + rng.below(last), rng.pick(&NO_NUMBERS)),
        2 => {
            words.truncate(1 + rng.below(last));
            return ("too few words", words.join(&b' '));
        }
        3 => {
            let more: [&[u8]; 3] = [b"0", b"25 25", b"age=0"];
            words.push(rng.pick(&more).to_vec());
            return ("a word left over", words.join(&b' '));
        }
        4 => {
            let far: [&[u8]; 3] = [b"-1", b"4294967296", b"18446744073709551616"];
            ("moment too far", last, rng.pick(&far))
        }
        5 => {
            let far: [&[u8]; 4] = [b"-1", b"65", b"4294967297", b"18446744073709551617"];
            ("count too far", 1, rng.pick(&far))
        }
        6 => {
            words.truncate(1);
            words.extend([b"1".to_vec(), Vec::new(), b"5".to_vec()]);
            ("point too far", 2, far_signed(rng))
        }
        7 => {
            words.insert(0, b"1".to_vec());
            return ("the word not the first", words.join(&b' '));
        }
        _ => {
            let spare = LONGEST + 1 - words.join(&b' ').len();
            words[last].extend(vec![b' '; spare]);
            return ("too long", words.join(&b' '));
        }
    };
    words[at] = wrong.to_vec();
    (name, words.join(&b' '))
}

/// A patch line that cannot be read, and its name.
fn unreadable_patch(
    rng: &mut Xorshift,
    mut words: Vec<Vec<u8>>,
    turn: usize,
) -> (&'static str, Vec<u8>) {
    match turn % 3 {
        0 => {
            let names: [&[u8]; 4] = [b"patches", b"patc", b"Patch", b"patch="];
            words[0] = rng.pick(&names).to_vec();
            ("another word", words.join(&b' '))
        }
        1 => {
            words.truncate(1 + rng.below(4));
            ("too few words", words.join(&b' '))
        }
        _ => {
            let more: [&[u8]; 3] = [b"1 1 1", b"1 1 age=0", b"x"];
            words.push(rng.pick(&more).to_vec());
            ("words left over", words.join(&b' '))
        }
    }
}
