//! Ticket 11 (rule Part of a curve): the f64 card.

use second::card::{card, Part};
use second::xorshift::Xorshift;
use Part::{Line, Stay};

/// The numbers of an accepted part; places beyond the count have all bits 0.
fn numerators(m: u32, surface: &[i32], part: Part) -> Vec<f64> {
    let told = card(m, surface, part);
    assert_eq!((told.number, told.place), (0, 0));
    let (used, unused) = told.record.numerators.split_at(told.record.count as usize);
    assert!(unused.iter().all(|number| number.to_bits() == 0));
    used.to_vec()
}

/// The number and place of a refused part; its record has all bits 0.
fn refused(m: u32, surface: &[i32], part: Part) -> (u32, u32) {
    let told = card(m, surface, part);
    assert!(told.number != 0);
    assert_eq!(told.record.count, 0);
    assert!(told
        .record
        .numerators
        .iter()
        .all(|number| number.to_bits() == 0));
    (told.number, told.place)
}

fn bits(numbers: &[f64]) -> Vec<u64> {
    numbers.iter().map(|number| number.to_bits()).collect()
}

/// P3's numerators are 2097152, 5242880 and 1572864; the middle one is taken
/// in two ways.
#[test]
fn p3() {
    let surface = [2, 3, -2];
    let line = numerators(2, &surface, Line(0.0, 512.0));
    assert_eq!(line, [2_097_152.0, 2_621_440.0, 1_572_864.0]);
    // The same line ridden back.
    let back = numerators(2, &surface, Line(512.0, 0.0));
    assert_eq!(back, [1_572_864.0, 2_621_440.0, 2_097_152.0]);
    assert_eq!(numerators(2, &surface, Stay(512.0)), [1_572_864.0]);
    assert_eq!(numerators(2, &surface, Stay(0.0)), [2_097_152.0]);
}

/// P11: 2^52, whose bits are 0x4330_0000_0000_0000.
#[test]
fn p11() {
    let told = numerators(4, &[0, 0, 0, 0, 4096], Stay(1024.0));
    assert_eq!(bits(&told), [0x4330_0000_0000_0000]);
    let told = numerators(4, &[0, 0, 0, 0, -4096], Line(0.0, 1024.0));
    assert_eq!(bits(&told), [0, 0, 0, 0, 0xc330_0000_0000_0000]);
}

/// 2^52 − 1 has all bits of its fraction that a number below 2^52 can have.
#[test]
fn a_full_fraction() {
    let told = numerators(4, &[4096, 4096, 4096, 4096, 4095], Stay(1.0));
    assert_eq!(told, [4_503_599_627_370_495.0]);
    assert_eq!(bits(&told), [0x432f_ffff_ffff_fffe]);
}

#[test]
fn counts() {
    for m in 0..=4 {
        let surface = vec![-9; m as usize + 1];
        assert_eq!(numerators(m, &surface, Stay(3.0)).len(), 1);
        let line = numerators(m, &surface, Line(3.0, 1021.0));
        assert_eq!(line.len(), m as usize + 1);
        let value = -9.0 * 1024_f64.powi(m as i32);
        assert!(line.iter().all(|&number| number == value));
    }
}

/// Zero is plus zero, however it comes about.
#[test]
fn never_minus_zero() {
    for (surface, part) in [
        (&[-1, 1][..], Stay(512.0)),
        (&[0, -5][..], Stay(0.0)),
        (&[0, -5][..], Stay(-0.0)),
        (&[-5, 0][..], Stay(1024.0)),
        (&[0, 0][..], Stay(7.0)),
    ] {
        assert_eq!(bits(&numerators(1, surface, part)), [0]);
    }
    let line = numerators(2, &[0, -1, 1], Line(-0.0, -0.0));
    assert_eq!(bits(&line), [0, 0, 0]);
}

#[test]
fn path_numbers() {
    let bad = [
        f64::NAN,
        -f64::NAN,
        f64::from_bits(0x7ff0_0000_0000_0001),
        f64::from_bits(0xffff_ffff_ffff_ffff),
        f64::INFINITY,
        f64::NEG_INFINITY,
        f64::MIN_POSITIVE,
        f64::from_bits(1),
        -f64::from_bits(1),
        0.5,
        1023.5,
        1_023.999_999_999_999_9,
        1_024.000_000_000_000_2,
        1025.0,
        -1.0,
        1e308,
        -1e308,
        4_294_967_296.0,
    ];
    for number in bad {
        assert_eq!(refused(1, &[0, 1], Stay(number)), (7, 0));
        assert_eq!(refused(1, &[0, 1], Line(number, 0.0)), (7, 0));
        assert_eq!(refused(1, &[0, 1], Line(number, f64::NAN)), (7, 0));
        assert_eq!(refused(1, &[0, 1], Line(0.0, number)), (7, 1));
    }
    for whole in 0..=1024 {
        let told = numerators(1, &[0, 1], Stay(f64::from(whole)));
        assert_eq!(told, [f64::from(whole)]);
    }
}

#[test]
fn refusals_in_their_order() {
    let bad = Line(f64::NAN, 0.5);
    assert_eq!(refused(5, &[], bad), (2, 0));
    assert_eq!(refused(u32::MAX, &[0; 5], bad), (2, 0));
    assert_eq!(refused(4, &[5000; 4], bad), (3, 0));
    assert_eq!(refused(0, &[], bad), (3, 0));
    assert_eq!(refused(4, &[0; 6], bad), (3, 0));
    assert_eq!(refused(2, &[4096, -4096, 4097], bad), (6, 2));
    assert_eq!(refused(2, &[4096, -4097, 4097], Stay(0.0)), (6, 1));
    assert_eq!(refused(2, &[4096, -4096, 0], bad), (7, 0));
}

/// A numerator of a line is a step of de Casteljau at one end after another,
/// here in f64 throughout: at these bounds every product and sum is exact.
#[test]
fn the_steps_are_exact_in_f64() {
    let mut rng = Xorshift::new(111);
    for _ in 0..20_000 {
        let m = rng.below(5);
        let surface: Vec<i32> = (0..=m).map(|_| rng.between(-4096, 4096)).collect();
        let [from, to] = [0, 1].map(|_| f64::from(rng.between(0, 1024)));
        let told = numerators(m as u32, &surface, Line(from, to));
        for (place, number) in told.iter().enumerate() {
            let mut values: Vec<f64> = surface.iter().map(|&value| f64::from(value)).collect();
            for turn in 0..m {
                let u = if turn < place { to } else { from };
                values = values
                    .windows(2)
                    .map(|pair| (1024.0 - u) * pair[0] + u * pair[1])
                    .collect();
            }
            assert_eq!(values[0], *number);
        }
        assert_eq!(numerators(m as u32, &surface, Stay(from))[0], told[0]);
    }
}
