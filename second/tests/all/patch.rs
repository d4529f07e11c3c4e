//! Ticket 8 (rule Patches on patches).

use second::patch::{indices, multinomial, patch};
use second::ride::triangle;
use second::xorshift::Xorshift;
use second::Answer;

/// The most places of an answer.
const PLACES: usize = 55;

/// The answer with what was written; spare places must stay.
fn told(degrees: [u32; 2], surface: &[i32], path: &[i32]) -> (Answer, Vec<i64>, Vec<i32>) {
    let (mut exact, mut points) = (vec![-7; PLACES + 3], vec![-9; PLACES + 1]);
    let answer = patch(
        degrees[0],
        degrees[1],
        surface,
        path,
        &mut exact,
        &mut points,
    );
    let count = answer.count as usize;
    assert!(exact.split_off(count).iter().all(|&place| place == -7));
    assert!(points.split_off(count).iter().all(|&place| place == -9));
    (answer, exact, points)
}

/// The number and place of a refused patch with these rooms.
fn refused(degrees: [u32; 2], surface: &[i32], path: &[i32], rooms: [usize; 2]) -> (u32, u32) {
    let (mut exact, mut points) = (vec![-7; rooms[0]], vec![-9; rooms[1]]);
    let answer = patch(
        degrees[0],
        degrees[1],
        surface,
        path,
        &mut exact,
        &mut points,
    );
    assert!(answer.number != 0);
    assert_eq!(answer.count, 0);
    assert!(exact.iter().all(|&place| place == -7));
    assert!(points.iter().all(|&place| place == -9));
    (answer.number, answer.place)
}

/// Worked patches, reckoned apart from this program by expanding the product
/// of the Bernstein forms.
#[test]
fn worked_patches() {
    let worked = |degrees, surface: &[i32], path: &[i32], exact: &[i64], points: &[i32]| {
        let told = told(degrees, surface, path);
        assert_eq!(told.0, Answer::accepted(exact.len()));
        assert_eq!(told.1, exact);
        assert_eq!(told.2, points);
    };
    // One control value, whatever the piece.
    worked([0, 0], &[-77], &[1, 2, 1021], &[-77], &[-77]);
    let piece = [0, 0, 1024, 512, 512, 0, 1024, 0, 0].repeat(2);
    worked([0, 2], &[-77], &piece, &[-77], &[-77]);
    // A plane piece: x goes with i, y with j, z with k, and so do the places.
    worked(
        [1, 1],
        &[10, 20, 30],
        &[512, 256, 256, 0, 1000, 24, 1024, 0, 0],
        &[23_040, 20_240, 30_720],
        &[23, 20, 30],
    );
    worked(
        [2, 1],
        &[5, -7, 11, 13, -17, 190],
        &[100, 200, 724, 700, 24, 300, 0, 1024, 0],
        &[
            4_136_080,
            36_909_536,
            98_344_336,
            -9_355_264,
            -28_131_328,
            11_534_336,
        ],
        &[4, 18, 94, -4, -13, 11],
    );
    worked(
        [1, 2],
        &[-400, 350, 77],
        &[
            0, 0, 1024, 1000, 20, 4, 300, 300, 424, 512, 0, 512, 7, 900, 117, 1024, 0, 0,
        ],
        &[-409_600, 164_800, -41_500, -330_752, 537_478, 78_848],
        &[-400, 80, -41, -162, 262, 77],
    );
    worked(
        [2, 2],
        &[4096, -4096, 12, -3, 700, -2999],
        &[
            3, 21, 1000, 1000, 20, 4, 300, 301, 423, 511, 1, 512, 7, 900, 117, 1024, 0, 0,
        ],
        &[
            3_924_016_501,
            -252_520_240,
            -10_956_751_542,
            -2_874_614_688,
            -453_301_020,
            8_201_579_140,
            -25_338_370_480,
            4_297_033_988,
            -5_254_269_116,
            1_147_900_788,
            -22_878_777_824,
            -4_566_308_196,
            -6_280_499_200,
            2_493_054_976,
            -3_144_679_424,
        ],
        &[
            3742, -60, -1742, -685, -432, 1955, -2014, 341, -1253, 182, -1818, -726, -1497, 594,
            -2999,
        ],
    );
}

/// (3, 3) with all values at a bound: each numerator is its multinomial times
/// 2^42, in the middle 9!/(3! 3! 3!) = 1680 of it.
#[test]
fn corners() {
    let mut path = Vec::new();
    for [i, j, _] in indices(3) {
        let (x, y) = (341 * i as i32, 100 * j as i32 + 1);
        path.extend([x, y, 1024 - x - y]);
    }
    path.truncate(27);
    path.extend([1024, 0, 0]);
    for value in [4096, -4096] {
        let (answer, exact, points) = told([3, 3], &[value; 10], &path);
        assert_eq!(answer, Answer::accepted(55));
        let middle = indices(9).iter().position(|&at| at == [3, 3, 3]).unwrap();
        assert_eq!(exact[middle], i64::from(value) * 1680 * (1 << 30));
        assert_eq!([exact[0], exact[54]], [i64::from(value) << 30; 2]);
        assert_eq!(points, [value; 55]);
    }
}

/// A ride is a patch's edge: where a and b are 0 the first row of a domain of
/// degree N is a path, and the first L+1 places are its composed curve.
#[test]
fn an_edge_is_a_ride() {
    let mut rng = Xorshift::new(81);
    for _ in 0..300 {
        let (outer, domain) = (rng.below(4), rng.below(4));
        let (surface, path) = any(&mut rng, outer, domain);
        let (answer, exact, points) = told([outer as u32, domain as u32], &surface, &path);
        assert_eq!(answer.number, 0);
        let (mut edge, mut rounded) = ([0; 13], [0; 13]);
        let ride = second::compose(
            3,
            outer as u32,
            0,
            domain as u32,
            0,
            &surface,
            &path[..3 * (domain + 1)],
            &mut edge,
            &mut rounded,
        );
        let count = ride.count as usize;
        assert_eq!(count, outer * domain + 1);
        let exact: Vec<i128> = exact.iter().map(|&numerator| numerator.into()).collect();
        assert_eq!(exact[..count], edge[..count]);
        assert_eq!(points[..count], rounded[..count]);
    }
}

fn any(rng: &mut Xorshift, outer: usize, domain: usize) -> (Vec<i32>, Vec<i32>) {
    let surface = indices(outer)
        .iter()
        .map(|_| rng.between(-4096, 4096))
        .collect();
    let mut path = Vec::new();
    for _ in indices(domain) {
        let x = rng.between(0, 1024);
        let y = rng.between(0, 1024 - x);
        path.extend([x, y, 1024 - x - y]);
    }
    (surface, path)
}

/// Demands 2 and 3 at every place (a, b, c)/q with q from 1 to 9, by
/// Bernstein's triangular formula and with no blossom. A surface of degree L
/// is fixed by the places with q = L, so this settles every numerator.
#[test]
fn the_exact_patch_is_the_surface_on_the_piece() {
    let mut rng = Xorshift::new(82);
    for degrees in 0..16 {
        let (outer, domain) = (degrees / 4, degrees % 4);
        let length = outer * domain;
        for _ in 0..12 {
            let (surface, path) = any(&mut rng, outer, domain);
            let (answer, exact, points) = told([outer as u32, domain as u32], &surface, &path);
            assert_eq!(answer, Answer::accepted(indices(length).len()));
            let wide = |numbers: &[i32]| -> Vec<i128> {
                numbers.iter().map(|&number| i128::from(number)).collect()
            };
            let (surface, path) = (wide(&surface), wide(&path));
            for q in 1..=9 {
                for place in indices(q) {
                    let at = place.map(|part| part as i128);
                    let piece = [0, 1, 2].map(|part| {
                        let numbers: Vec<i128> = path[part..].iter().step_by(3).copied().collect();
                        triangle(&numbers, domain, at)
                    });
                    let surface = triangle(&surface, outer, piece);
                    let mut sum = 0;
                    for (index, &numerator) in indices(length).iter().zip(&exact) {
                        let powers: i128 = (0..3).map(|p| at[p].pow(index[p] as u32)).product();
                        sum += powers * i128::from(numerator);
                    }
                    assert_eq!(sum, surface);
                    let unit = 1024_i128.pow(outer as u32);
                    let drawn = triangle(&wide(&points), length, at) * unit;
                    let whole = unit * (q as i128).pow(length as u32);
                    assert!(2 * (drawn - surface).abs() <= whole);
                }
            }
        }
    }
}

#[test]
fn refusals_in_their_order() {
    let path = [0, 0, 1024].repeat(10);
    let good = [0; 10];
    assert_eq!(refused([4, 0], &[], &[], [0; 2]), (2, 0));
    assert_eq!(refused([0, 4], &[], &[], [0; 2]), (2, 0));
    assert_eq!(refused([u32::MAX, u32::MAX], &[], &[], [0; 2]), (2, 0));
    assert_eq!(refused([3, 3], &good[..9], &path[1..], [0; 2]), (3, 0));
    assert_eq!(refused([3, 3], &good, &path[1..], [0; 2]), (4, 0));
    assert_eq!(refused([3, 3], &[5000; 10], &path, [54, 55]), (5, 0));
    assert_eq!(refused([3, 3], &[5000; 10], &path, [55, 54]), (5, 0));
    let mut high = good;
    high[7] = -4097;
    high[9] = 4097;
    let mut wrong = path.clone();
    wrong[13] = -1;
    assert_eq!(refused([3, 3], &high, &wrong, [55; 2]), (6, 7));
    assert_eq!(refused([3, 3], &good, &wrong, [55; 2]), (7, 13));
    wrong[13] = 1;
    wrong[28] = 2;
    assert_eq!(refused([3, 3], &good, &wrong, [55; 2]), (8, 4));
    wrong[14] = 1023;
    assert_eq!(refused([3, 3], &good, &wrong, [55; 2]), (8, 9));
    let (mut exact, mut points) = ([0; 55], [0; 55]);
    assert_eq!(
        patch(3, 3, &good, &path, &mut exact, &mut points),
        Answer::accepted(55)
    );
}

#[test]
fn multinomials_add_up() {
    assert_eq!(multinomial([3, 3, 3]), 1680);
    assert_eq!(multinomial([0, 0, 0]), 1);
    assert_eq!(multinomial([1, 2, 0]), 3);
    for degree in 0..=9 {
        let sum: i128 = indices(degree).into_iter().map(multinomial).sum();
        assert_eq!(sum, 3_i128.pow(degree as u32));
    }
}
