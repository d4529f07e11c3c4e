//! Patch lines: `patch n N count value.. count number..` and, if wanted, two
//! rooms, answered by `number place count | numerators | points`.

use crate::line::{append, Words, POINT_FILL};
use crate::patch::patch;
use crate::Answer;

/// The word that a patch line begins with.
pub const PATCH: &[u8] = b"patch";

/// The room of both arrays when a line names none: the longest answer.
pub const OWN_ROOM: usize = 55;

/// What the places for numerators hold beforehand.
const EXACT_FILL: i64 = -7;

/// A patch read from a line.
#[derive(Clone, Debug, PartialEq, Eq)]
pub struct Piece {
    pub outer: u32,
    pub domain: u32,
    pub surface: Vec<i32>,
    pub path: Vec<i32>,
    /// Room for numerators and for points, if the line names them.
    pub rooms: Option<(usize, usize)>,
}

impl Piece {
    /// Reads what stands behind the word.
    pub fn read(words: &mut Words) -> Result<Piece, String> {
        let outer = words.unsigned("the outer degree")?;
        let domain = words.unsigned("the domain degree")?;
        let surface = words.list("control value")?;
        let path = words.list("path number")?;
        let rooms = match words.left() {
            0 => None,
            2 => Some(words.rooms()?),
            left => return Err(format!("{left} words left over, not 0 or 2")),
        };
        Ok(Piece {
            outer,
            domain,
            surface,
            path,
            rooms,
        })
    }

    /// The line; reading it gives the same patch back.
    pub fn line(&self) -> String {
        let mut line = format!("patch {} {}", self.outer, self.domain);
        for list in [&self.surface, &self.path] {
            append(&mut line, &[list.len()]);
            append(&mut line, list);
        }
        if let Some((exact, points)) = self.rooms {
            append(&mut line, &[exact, points]);
        }
        line
    }

    /// The answer and both arrays, in the places that are shown.
    pub fn answered(&self) -> (Answer, Vec<i64>, Vec<i32>) {
        let (exact, points) = self.rooms.unwrap_or((OWN_ROOM, OWN_ROOM));
        let (mut exact, mut points) = (vec![EXACT_FILL; exact], vec![POINT_FILL; points]);
        let answer = patch(
            self.outer,
            self.domain,
            &self.surface,
            &self.path,
            &mut exact,
            &mut points,
        );
        if self.rooms.is_none() {
            exact.truncate(answer.count as usize);
            points.truncate(answer.count as usize);
        }
        (answer, exact, points)
    }

    /// The answer line.
    pub fn answer(&self) -> String {
        let (answer, exact, points) = self.answered();
        let mut line = format!("{} {} {} |", answer.number, answer.place, answer.count);
        append(&mut line, &exact);
        line.push_str(" |");
        append(&mut line, &points);
        line
    }
}
