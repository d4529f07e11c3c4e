//! Ticket 6 (rule Two words): a numerator in two words, worth high·2^64 + low.

/// The signed high word and the unsigned low word of a whole number, by floor
/// division: the low word is what is left, from 0 to 2^64 − 1.
///
/// Panics where the high word does not fit 64 bits.
pub fn words(number: i128) -> (i64, u64) {
    let unit = 1_i128 << 64;
    let (high, low) = (number.div_euclid(unit), number.rem_euclid(unit));
    (
        i64::try_from(high).expect("the high word fits"),
        u64::try_from(low).expect("the low word fits"),
    )
}

/// What two words are worth.
pub fn worth(high: i64, low: u64) -> i128 {
    (i128::from(high) << 64) + i128::from(low)
}

#[cfg(test)]
mod tests {
    use super::*;

    #[test]
    fn numbers_about_zero() {
        assert_eq!(words(0), (0, 0));
        assert_eq!(words(1), (0, 1));
        assert_eq!(words(-1), (-1, u64::MAX));
        assert_eq!(words(-2), (-1, u64::MAX - 1));
    }

    #[test]
    fn numbers_about_a_whole_high_word() {
        for high in [-700, -3, -1, 1, 2, 700] {
            let at = i128::from(high) << 64;
            assert_eq!(words(at), (high, 0));
            assert_eq!(words(at + 1), (high, 1));
            assert_eq!(words(at - 1), (high - 1, u64::MAX));
        }
        assert_eq!(words(i128::MAX), (i64::MAX, u64::MAX));
        assert_eq!(words(i128::MIN), (i64::MIN, 0));
    }

    #[test]
    fn the_words_are_worth_the_number() {
        let mut number = 1_i128;
        while number < 1 << 100 {
            for near in [number - 1, number, number + 1] {
                for signed in [near, -near] {
                    let (high, low) = words(signed);
                    assert_eq!(worth(high, low), signed);
                }
            }
            number *= 3;
        }
    }
}
