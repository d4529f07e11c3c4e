//! The rounding of a point, kept in one place.

/// The whole number nearest to `numerator / divisor`; a half goes away from
/// zero. The divisor is above 0.
///
/// The size is rounded, floor((2·|a| + d) / 2d), and the sign put back, so
/// that port and starboard mirror.
pub fn nearest(numerator: i128, divisor: i128) -> i128 {
    let size = (2 * numerator.abs() + divisor) / (2 * divisor);
    numerator.signum() * size
}

#[cfg(test)]
mod tests {
    use super::nearest;

    #[test]
    fn halves_go_away_from_zero() {
        assert_eq!(nearest(5, 2), 3);
        assert_eq!(nearest(3, 2), 2);
        assert_eq!(nearest(1, 2), 1);
        assert_eq!(nearest(0, 2), 0);
        assert_eq!(nearest(-1, 2), -1);
        assert_eq!(nearest(-3, 2), -2);
        assert_eq!(nearest(-5, 2), -3);
    }

    #[test]
    fn just_beside_a_half() {
        assert_eq!(nearest(511, 1024), 0);
        assert_eq!(nearest(512, 1024), 1);
        assert_eq!(nearest(-511, 1024), 0);
        assert_eq!(nearest(-512, 1024), -1);
        assert_eq!(nearest(1535, 1024), 1);
        assert_eq!(nearest(1536, 1024), 2);
        assert_eq!(nearest(-1535, 1024), -1);
        assert_eq!(nearest(-1536, 1024), -2);
    }

    #[test]
    fn the_result_is_the_only_one_that_may_be() {
        for divisor in 1..=9_i128 {
            for numerator in -60..=60_i128 {
                // Within a half of the fraction, and beyond it at a half.
                let may_be = |point: &i128| {
                    let off = (2 * point * divisor - 2 * numerator).abs();
                    let beyond = point.abs() * divisor > numerator.abs();
                    off < divisor || (off == divisor && beyond)
                };
                let all: Vec<i128> = (-61..=61).filter(may_be).collect();
                assert_eq!(all, [nearest(numerator, divisor)]);
            }
        }
    }

    #[test]
    fn a_mirrored_fraction_gives_a_mirrored_point() {
        for divisor in 1..=40 {
            for numerator in 0..=200 {
                assert_eq!(nearest(-numerator, divisor), -nearest(numerator, divisor));
            }
        }
    }
}
