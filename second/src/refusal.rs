//! The nine refusals.

use crate::Answer;

/// Why a request is refused, with the number of each. STALE came late: its
/// number is not its rank in the order, and 9 is the door's.
#[derive(Clone, Copy, Debug, PartialEq, Eq)]
pub enum Refusal {
    Kind = 1,
    Degree = 2,
    Surface = 3,
    Path = 4,
    Room = 5,
    Value = 6,
    Parameter = 7,
    Balance = 8,
    Stale = 10,
}

impl Refusal {
    /// All nine, in the order in which they are tested.
    pub const ALL: [Refusal; 9] = [
        Refusal::Kind,
        Refusal::Degree,
        Refusal::Stale,
        Refusal::Surface,
        Refusal::Path,
        Refusal::Room,
        Refusal::Value,
        Refusal::Parameter,
        Refusal::Balance,
    ];

    /// The number that the answer carries.
    pub fn number(self) -> u32 {
        self as u32
    }

    /// The name by which it goes.
    pub fn name(self) -> &'static str {
        match self {
            Refusal::Kind => "KIND",
            Refusal::Degree => "DEGREE",
            Refusal::Stale => "STALE",
            Refusal::Surface => "SURFACE",
            Refusal::Path => "PATH",
            Refusal::Room => "ROOM",
            Refusal::Value => "VALUE",
            Refusal::Parameter => "PARAMETER",
            Refusal::Balance => "BALANCE",
        }
    }

    /// This refusal at a place.
    pub fn at(self, place: usize) -> Refused {
        Refused {
            refusal: self,
            place,
        }
    }
}

/// A refusal and its place.
#[derive(Clone, Copy, Debug, PartialEq, Eq)]
pub struct Refused {
    pub refusal: Refusal,
    pub place: usize,
}

impl Refused {
    /// The answer of a refused request; its count is 0.
    ///
    /// A place other than 0 comes only after the counts were found right, so
    /// it is below 15.
    pub fn answer(self) -> Answer {
        Answer {
            number: self.refusal.number(),
            place: self.place as u32,
            count: 0,
        }
    }
}
