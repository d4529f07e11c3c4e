//! The numbers that tickets move: which tickets have landed is said here and
//! nowhere else.

use crate::record::HEAD;
use crate::request::MOST_ARGUMENTS;

/// What holds between two tickets.
#[derive(Clone, Copy, Debug, PartialEq, Eq)]
pub struct Edition {
    /// The largest N.
    pub most_path_degree: usize,
    /// What a request record counts as that carries no age: an age, or STALE.
    pub ageless: Option<u16>,
    /// The largest length of a recorded record.
    pub longest: usize,
}

/// The base with tickets 1 to 5 and 14 (rule Forms and degrees).
pub const SHORT: Edition = Edition {
    most_path_degree: 3,
    ageless: Some(0),
    longest: 126,
};

/// Ticket 6 (rule Forms and degrees): N up to 6.
pub const LONG: Edition = Edition {
    most_path_degree: 6,
    ..SHORT
};

/// Ticket 10 (rule Old traces): no age means old, and traces may hold records of 128 bytes.
pub const AGED: Edition = Edition {
    ageless: None,
    longest: 128,
    ..LONG
};

/// What holds today.
pub const TODAY: Edition = AGED;

impl Edition {
    /// The most points of an answer.
    pub const fn most_points(&self) -> usize {
        MOST_ARGUMENTS as usize * self.most_path_degree + 1
    }

    /// The least room for a reply: a record of the most points.
    pub const fn room(&self) -> usize {
        HEAD + 2 * self.most_points()
    }
}

#[cfg(test)]
mod tests {
    use super::*;

    #[test]
    fn rooms_are_those_of_the_tickets() {
        assert_eq!(SHORT.room(), 34);
        assert_eq!(LONG.room(), 58);
        assert_eq!(AGED.room(), 58);
    }
}
