//! Binomials, by the product formula and without a table.

/// The number of ways to take `k` out of `n`.
///
/// After step i the running number is binomial(n, i), so each division is
/// without remainder.
pub fn binomial(n: usize, k: usize) -> i128 {
    if k > n {
        return 0;
    }
    (1..=k).fold(1, |ways, i| ways * (n - k + i) as i128 / i as i128)
}

#[cfg(test)]
mod tests {
    use super::binomial;

    #[test]
    fn ends_are_one_and_inner_numbers_are_sums() {
        for n in 0..=24 {
            assert_eq!(binomial(n, 0), 1);
            assert_eq!(binomial(n, n), 1);
            assert_eq!(binomial(n, n + 1), 0);
            for k in 1..n {
                assert_eq!(binomial(n, k), binomial(n - 1, k - 1) + binomial(n - 1, k));
            }
        }
        assert_eq!(binomial(12, 6), 924);
        assert_eq!(binomial(24, 12), 2_704_156);
    }
}
