//! Requests and answers as lines of text.
//!
//! A request line is whole numbers with blanks between them: form, first
//! degree, second degree, N; the count of control values and the values; the
//! count of path numbers and the numbers. After these come, if wanted, the
//! two rooms, and as the last word, if wanted, the age as a marked word,
//! `age=251`; an age that the line does not name is 0.
//!
//! A line whose first word is `tick` or `patch` is of another kind
//! (`tick_line`, `patch_line`).

use crate::edition::TODAY;
use crate::patch_line::{Piece, PATCH};
use crate::tick_line::{Net, TICK};
use crate::{compose, entries, Answer, Request};
use std::fmt::Write;

/// The longest line that is read, in bytes and without its newline.
pub const LONGEST: usize = 4096;

/// The largest count or room on a line.
pub const MOST: i64 = 64;

/// The room of both arrays when a line names none: the longest answer.
pub const OWN_ROOM: usize = 25;

/// What marks the word of an age.
const MARK: &[u8] = b"age=";

/// What the places for numerators hold beforehand.
pub const EXACT_FILL: i128 = -7;

/// What the places for points hold beforehand.
pub const POINT_FILL: i32 = -9;

/// The answer line for a line that cannot be read.
pub const UNREADABLE: &str = "unreadable";

/// A request read from a line.
#[derive(Clone, Debug, PartialEq, Eq)]
pub struct Asked {
    pub form: u32,
    pub first: u32,
    pub second: u32,
    pub n: u32,
    pub age: u16,
    pub surface: Vec<i32>,
    pub path: Vec<i32>,
    /// Room for numerators and for points, if the line names them.
    pub rooms: Option<(usize, usize)>,
}

/// A request's answer with its entries and both arrays.
#[derive(Clone, Debug, PartialEq, Eq)]
pub struct Reply {
    pub answer: Answer,
    pub entries: u64,
    pub exact: Vec<i128>,
    pub points: Vec<i32>,
}

/// Whether a byte is a blank.
fn blank(byte: &u8) -> bool {
    matches!(byte, b' ' | b'\t' | b'\r')
}

/// Whether a line is passed over: only blanks, or begins with `#`.
pub fn passed_over(line: &[u8]) -> bool {
    line.first() == Some(&b'#') || line.iter().all(blank)
}

/// The answer line to a line of any kind, or what is wrong with it.
pub fn answer(line: &[u8]) -> Result<String, String> {
    let mut words = Words::of(line)?;
    match words.first() {
        Some(TICK) => {
            words.words.next();
            Net::read(&mut words).map(|net| net.answer())
        }
        Some(PATCH) => {
            words.words.next();
            Piece::read(&mut words).map(|piece| piece.answer())
        }
        _ => read(line).map(|asked| asked.reply().line()),
    }
}

/// Reads a request line, or says what is wrong with it.
pub fn read(line: &[u8]) -> Result<Asked, String> {
    let mut words = Words::of(line)?;
    let form = words.unsigned("the form")?;
    let first = words.unsigned("the first degree")?;
    let second = words.unsigned("the second degree")?;
    let n = words.unsigned("the path's degree")?;
    let surface = words.list("control value")?;
    let path = words.list("path number")?;
    let age = words.age()?;
    let rooms = match words.left() {
        0 => None,
        2 => Some(words.rooms()?),
        left => return Err(format!("{left} words left over, not 0 or 2")),
    };
    Ok(Asked {
        form,
        first,
        second,
        n,
        age,
        surface,
        path,
        rooms,
    })
}

/// The words of a line that are still to be read.
pub struct Words<'a> {
    words: std::vec::IntoIter<&'a [u8]>,
}

impl<'a> Words<'a> {
    /// The words of a whole line, unless it is too long.
    fn of(line: &'a [u8]) -> Result<Self, String> {
        if line.len() > LONGEST {
            return Err(format!("{} bytes, more than {LONGEST}", line.len()));
        }
        let words: Vec<&[u8]> = line.split(blank).filter(|word| !word.is_empty()).collect();
        Ok(Words {
            words: words.into_iter(),
        })
    }

    fn first(&self) -> Option<&'a [u8]> {
        self.words.as_slice().first().copied()
    }

    pub fn left(&self) -> usize {
        self.words.len()
    }

    /// The next number, within these bounds.
    fn number(&mut self, what: &str, low: i64, high: i64) -> Result<i64, String> {
        let word = self
            .words
            .next()
            .ok_or_else(|| format!("too few words: {what} is missing"))?;
        let shown = word.escape_ascii();
        let value = whole(word).ok_or_else(|| format!("{what}: `{shown}` is no whole number"))?;
        if (low..=high).contains(&value) {
            Ok(value)
        } else {
            Err(format!("{what}: {shown} is outside {low} to {high}"))
        }
    }

    pub fn unsigned(&mut self, what: &str) -> Result<u32, String> {
        self.number(what, 0, i64::from(u32::MAX))
            .map(|value| value as u32)
    }

    fn signed(&mut self, what: &str) -> Result<i32, String> {
        self.number(what, i64::from(i32::MIN), i64::from(i32::MAX))
            .map(|value| value as i32)
    }

    fn small(&mut self, what: &str) -> Result<usize, String> {
        self.number(what, 0, MOST).map(|value| value as usize)
    }

    /// The rooms for numerators and for points.
    pub fn rooms(&mut self) -> Result<(usize, usize), String> {
        let exact = self.small("the room for numerators")?;
        let points = self.small("the room for points")?;
        Ok((exact, points))
    }

    /// The age, if the last word is marked as one.
    fn age(&mut self) -> Result<u16, String> {
        let marked = |word: &&[u8]| word.starts_with(MARK);
        let Some(word) = self.words.as_slice().last().copied().filter(marked) else {
            return Ok(0);
        };
        self.words.next_back();
        let shown = word.escape_ascii();
        match &word[MARK.len()..] {
            digits if digits.starts_with(b"-") => None,
            digits => whole(digits),
        }
        .and_then(|value| u16::try_from(value).ok())
        .ok_or_else(|| format!("the age: `{shown}` is no age of 0 to 65535"))
    }

    /// A count and as many values.
    pub fn list(&mut self, what: &str) -> Result<Vec<i32>, String> {
        let count = self.small(&format!("the count of {what}s"))?;
        (0..count)
            .map(|at| self.signed(&format!("{what} {at}")))
            .collect()
    }
}

/// The whole decimal number that a word spells: digits, with one `-` before
/// them if it likes. Beyond 64 bits it stays at their end, which is outside
/// every bound asked for here.
fn whole(word: &[u8]) -> Option<i64> {
    let (sign, digits) = match word {
        [b'-', digits @ ..] => (-1, digits),
        digits => (1, digits),
    };
    if digits.is_empty() || !digits.iter().all(u8::is_ascii_digit) {
        return None;
    }
    Some(digits.iter().fold(0_i64, |value, digit| {
        value
            .saturating_mul(10)
            .saturating_add(sign * i64::from(digit - b'0'))
    }))
}

impl Asked {
    /// The request line; `read` gives the same request back. Age 0 is not
    /// written.
    pub fn line(&self) -> String {
        let mut line = format!("{} {} {} {}", self.form, self.first, self.second, self.n);
        for list in [&self.surface, &self.path] {
            append(&mut line, &[list.len()]);
            append(&mut line, list);
        }
        if let Some((exact, points)) = self.rooms {
            append(&mut line, &[exact, points]);
        }
        if self.age > 0 {
            write!(line, " age={}", self.age).expect("a string takes every word");
        }
        line
    }

    /// The request, without its rooms.
    pub fn request(&self) -> Request<'_> {
        Request {
            form: self.form,
            first: self.first,
            second: self.second,
            n: self.n,
            age: self.age,
            surface: &self.surface,
            path: &self.path,
        }
    }

    /// The mirrored request: all control values negated, all else the same.
    /// The least number has no mirror in 32 bits and becomes the greatest;
    /// both are beyond the bounds.
    pub fn mirrored(&self) -> Self {
        let surface = self.surface.iter().map(|value| value.saturating_neg());
        Asked {
            surface: surface.collect(),
            ..self.clone()
        }
    }

    /// Asks for the composed curve. With rooms named, the arrays have exactly
    /// that size; without, they have room for the longest answer, and only
    /// the places that the answer counts are kept.
    pub fn reply(&self) -> Reply {
        let (exact_room, points_room) = self.rooms.unwrap_or((OWN_ROOM, OWN_ROOM));
        let mut exact = vec![EXACT_FILL; exact_room];
        let mut points = vec![POINT_FILL; points_room];
        let answer = compose(
            self.form,
            self.first,
            self.second,
            self.n,
            self.age,
            &self.surface,
            &self.path,
            &mut exact,
            &mut points,
        );
        if self.rooms.is_none() {
            exact.truncate(answer.count as usize);
            points.truncate(answer.count as usize);
        }
        Reply {
            answer,
            entries: entries::told(&self.request(), &TODAY, &answer),
            exact,
            points,
        }
    }
}

impl Reply {
    /// The answer line: `number place count entries | numerators | points`.
    pub fn line(&self) -> String {
        let Answer {
            number,
            place,
            count,
        } = self.answer;
        let mut line = format!("{number} {place} {count} {} |", self.entries);
        append(&mut line, &self.exact);
        line.push_str(" |");
        append(&mut line, &self.points);
        line
    }
}

/// Puts each number after the line, with one space before it.
pub fn append<T: std::fmt::Display>(line: &mut String, numbers: &[T]) {
    for number in numbers {
        write!(line, " {number}").expect("a string takes every word");
    }
}
