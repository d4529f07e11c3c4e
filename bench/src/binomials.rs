//! Pascal's triangle for the programs beside the composer, as many rows as a kind of rides needs.

pub struct Pascal<const ROWS: usize>;

impl<const ROWS: usize> Pascal<ROWS> {
    pub const TRIANGLE: &'static [[i64; ROWS]; ROWS] = &{
        let mut rows = [[0; ROWS]; ROWS];
        let mut n = 0;
        while n < ROWS {
            rows[n][0] = 1;
            let mut k = 1;
            while k <= n {
                rows[n][k] = rows[n - 1][k - 1] + rows[n - 1][k];
                k += 1;
            }
            n += 1;
        }
        rows
    };
}
