//! Ticket 9 (rule Reading at a tick): the curve read at a tick.

use second::edition::LONG;
use second::long::compose;
use second::sample::accepted;
use second::tick::{tick, Tick, PARTS};
use second::xorshift::Xorshift;
use second::{ride, Request};

/// A reading that must not be refused.
fn reading(points: &[i32], k: u32) -> i64 {
    let told = tick(points, k);
    assert_eq!((told.number, told.place), (0, 0));
    told.reading
}

/// A refusal at a place; its reading is 0.
fn refused(number: u32, place: u32) -> Tick {
    Tick {
        number,
        place,
        reading: 0,
    }
}

#[test]
fn refusals_in_their_order() {
    assert_eq!(tick(&[], 0), refused(3, 0));
    assert_eq!(tick(&[0; 26], 0), refused(3, 0));
    assert_eq!(tick(&[0; 25], 0), refused(0, 0));
    assert_eq!(tick(&[0, 4097, 5000], 0), refused(6, 1));
    assert_eq!(tick(&[0, 4096, -4097], 0), refused(6, 2));
    assert_eq!(tick(&[i32::MIN], 0), refused(6, 0));
    assert_eq!(tick(&[4096, -4096], 1025), refused(11, 0));
    assert_eq!(tick(&[0], u32::MAX), refused(11, 0));
    // All at once: the first of them is told.
    assert_eq!(tick(&[4097; 26], 1025), refused(3, 0));
    assert_eq!(tick(&[], u32::MAX), refused(3, 0));
    assert_eq!(tick(&[0, 4097], 1025), refused(6, 1));
}

/// At the ends the first and the last point are read, in 1/65,536.
#[test]
fn the_ends() {
    let points = [-4096, 17, 4096, 1];
    assert_eq!(reading(&points, 0), -4096 * 65_536);
    assert_eq!(reading(&points, 1024), 65_536);
    assert_eq!(reading(&[7], 0), 7 * 65_536);
    assert_eq!(reading(&[7], 333), 7 * 65_536);
}

/// Reckoned apart from this program, step by step.
#[test]
fn worked_readings() {
    assert_eq!(reading(&[0, 100], 512), 50 * 65_536);
    assert_eq!(reading(&[0, 1], 1), 64);
    // 2·(2/1024)²·65,536 is a half.
    assert_eq!(reading(&[0, 0, 2], 2), 1);
    assert_eq!(reading(&[0, 0, -2], 2), -1);
    // The moment is k/1024 and not its mirror.
    assert_eq!(reading(&[5, -3, 11, -4096], 701), -85_828_223);
    // Rounded at each step, and not once at the end: that gives −201585,
    // −116332 and 359025.
    assert_eq!(reading(&[-6, 9, -2, -9], 749), -201_586);
    assert_eq!(reading(&[-3, -6, -2, 5, 2, 7], 364), -116_333);
    assert_eq!(reading(&[7, -1, 5, -6, 9, 2, 0], 38), 359_026);
    let longest = [
        3334, 3901, 1109, 3752, 393, 672, 3605, 2519, -1696, -2252, 2080, -1157, 4084, 1449, -1145,
        -2636, 3962, 365, 1823, -3063, 1731, -3534, 912, 1858, 505,
    ];
    let expected = [
        (0, 218_497_024),
        (1, 219_311_067),
        (511, 41_101_300),
        (512, 41_143_572),
        (513, 41_183_565),
        (1023, 35_134_091),
        (1024, 33_095_680),
    ];
    for (k, told) in expected {
        assert_eq!(reading(&longest, k), told);
    }
}

/// Of any net, the reading lies within L/131072 of the curve read exactly. At
/// k = 128·e the exact reading has the denominator 8^L.
#[test]
fn near_the_curve() {
    let mut rng = Xorshift::new(91);
    for length in 0..=24 {
        for _ in 0..60 {
            let points: Vec<i32> = (0..=length).map(|_| rng.between(-4096, 4096)).collect();
            for eighths in 0..=8 {
                let told = i128::from(reading(&points, 128 * eighths));
                let exact = PARTS * ride::drawn(&points, i128::from(eighths), 8);
                let whole = 8_i128.pow(length);
                let off = (told * whole - exact).abs();
                assert!(2 * off <= i128::from(length) * whole);
            }
        }
    }
}

/// With few points, at every moment.
#[test]
fn near_the_curve_at_every_moment() {
    let mut rng = Xorshift::new(92);
    for length in 0..=5 {
        let points: Vec<i32> = (0..=length).map(|_| rng.between(-4096, 4096)).collect();
        let whole = 1024_i128.pow(length);
        for k in 0..=1024 {
            let told = i128::from(reading(&points, k));
            let off = (told * whole - PARTS * ride::drawn(&points, i128::from(k), 1024)).abs();
            assert!(2 * off <= i128::from(length) * whole);
        }
    }
}

#[test]
fn mirrored() {
    let mut rng = Xorshift::new(93);
    for _ in 0..4000 {
        let count = rng.below(25) + 1;
        let points: Vec<i32> = (0..count).map(|_| rng.between(-4096, 4096)).collect();
        let negated: Vec<i32> = points.iter().map(|point| -point).collect();
        let k = rng.between(0, 1024) as u32;
        assert_eq!(reading(&negated, k), -reading(&points, k));
    }
}

/// Of a net that the composer answered, the reading lies within
/// 1/2 + L/131072 of the surface at the path's place; at k = 256·e both have
/// denominators that are powers of 4.
#[test]
fn near_the_surface() {
    let mut rng = Xorshift::new(94);
    for _ in 0..1500 {
        let asked = accepted(&mut rng, &LONG);
        let (mut high, mut low, mut points) = ([0; 25], [0; 25], [0; 25]);
        let answer = compose(
            asked.form,
            asked.first,
            asked.second,
            asked.n,
            asked.age,
            &asked.surface,
            &asked.path,
            &mut high,
            &mut low,
            &mut points,
        );
        let request = Request {
            form: asked.form,
            first: asked.first,
            second: asked.second,
            n: asked.n,
            age: asked.age,
            surface: &asked.surface,
            path: &asked.path,
        };
        let good = request.check(&LONG, 25).expect("it is accepted");
        let length = good.shape.length();
        for quarters in 0..=4 {
            let told = reading(&points[..answer.count as usize], 256 * quarters);
            // Both times 1024^r·4^L, in 1/65,536 of a unit.
            let whole = good.shape.scale() * 4_i128.pow(length as u32);
            let k = i128::from(quarters);
            let surface = ride::surface(&good.shape, &good.surface, &good.path, k, 4);
            let off = (i128::from(told) * whole - PARTS * surface).abs();
            assert!(2 * off <= (PARTS + length as i128) * whole);
        }
    }
}
