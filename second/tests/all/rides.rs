//! The rides to reckon by hand, P1 to P12, and the line marked Run, all of
//! age 0.

use second::{compose, Answer};

const M: i128 = 1 << 20;

/// Composes with room for the longest answer and some spare places, and
/// gives back the answer with what was written; spare places must stay.
fn ride(degrees: [u32; 4], surface: &[i32], path: &[i32]) -> (Answer, Vec<i128>, Vec<i32>) {
    let mut exact = [-7; 32];
    let mut points = [-9; 29];
    let [form, first, second, n] = degrees;
    let answer = compose(
        form,
        first,
        second,
        n,
        0,
        surface,
        path,
        &mut exact,
        &mut points,
    );
    let count = answer.count as usize;
    assert!(exact[count..].iter().all(|&place| place == -7));
    assert!(points[count..].iter().all(|&place| place == -9));
    (answer, exact[..count].to_vec(), points[..count].to_vec())
}

/// A ride that must be accepted with these numerators and points.
fn good(degrees: [u32; 4], surface: &[i32], path: &[i32], numerators: &[i128], expected: &[i32]) {
    let (answer, exact, points) = ride(degrees, surface, path);
    let accepted = Answer {
        number: 0,
        place: 0,
        count: numerators.len() as u32,
    };
    assert_eq!(answer, accepted);
    assert_eq!(exact, numerators);
    assert_eq!(points, expected);
}

#[test]
fn p1() {
    let path = [0, 1024];
    good([1, 1, 0, 1], &[0, 100], &path, &[0, 102_400], &[0, 100]);
}

#[test]
fn p2() {
    let numerators = [2 * M, 6 * M, -2 * M];
    good(
        [1, 2, 0, 1],
        &[2, 3, -2],
        &[0, 1024],
        &numerators,
        &[2, 3, -2],
    );
}

#[test]
fn p3() {
    let numerators = [2_097_152, 5_242_880, 1_572_864];
    good(
        [1, 2, 0, 1],
        &[2, 3, -2],
        &[0, 512],
        &numerators,
        &[2, 3, 2],
    );
}

#[test]
fn p4() {
    let numerators = [-2_097_152, -5_242_880, -1_572_864];
    good(
        [1, 2, 0, 1],
        &[-2, -3, 2],
        &[0, 512],
        &numerators,
        &[-2, -3, -2],
    );
}

#[test]
fn p5() {
    let path = [0, 1024, 0];
    good(
        [1, 1, 0, 2],
        &[0, 100],
        &path,
        &[0, 204_800, 0],
        &[0, 100, 0],
    );
}

#[test]
fn p6() {
    let numerators = [0, 0, 629_145_600, 1_258_291_200, 629_145_600];
    let points = [0, 0, 100, 300, 600];
    good(
        [1, 2, 0, 2],
        &[0, 0, 600],
        &[0, 512, 1024],
        &numerators,
        &points,
    );
}

#[test]
fn p7() {
    let path = [0, 0, 1024, 1024];
    let numerators = [0, 0, 419_430_400];
    good(
        [2, 1, 1, 1],
        &[0, 0, 0, 400],
        &path,
        &numerators,
        &[0, 0, 400],
    );
}

#[test]
fn p8() {
    let path = [0, 1024, 1024, 0];
    let numerators = [0, 419_430_400, 0];
    good(
        [2, 1, 1, 1],
        &[0, 0, 0, 400],
        &path,
        &numerators,
        &[0, 200, 0],
    );
}

#[test]
fn p9() {
    let path = [512, 256, 256];
    good([3, 1, 0, 0], &[10, 20, 30], &path, &[23_040], &[23]);
}

#[test]
fn p10() {
    good([1, 0, 0, 3], &[7], &[0; 4], &[7], &[7]);
}

#[test]
fn p11() {
    let surface = [0, 0, 0, 0, 4096];
    good(
        [1, 4, 0, 0],
        &surface,
        &[1024],
        &[4_503_599_627_370_496],
        &[4096],
    );
}

#[test]
fn p12() {
    let (answer, exact, points) = ride([1, 4, 0, 3], &[4096; 5], &[0, 0, 1024, 1024]);
    assert_eq!(answer.number, 0);
    assert_eq!(answer.count, 13);
    assert_eq!(exact[6], 4_161_326_055_690_338_304);
    let binomials = [1, 12, 66, 220, 495, 792, 924, 792, 495, 220, 66, 12, 1];
    assert_eq!(exact, binomials.map(|ways: i128| ways << 52));
    assert_eq!(points, [4096; 13]);
}

/// The number and place of a refused ride with these rooms.
fn refused(
    degrees: [u32; 4],
    surface: &[i32],
    path: &[i32],
    exact_room: usize,
    points_room: usize,
) -> (u32, u32) {
    let mut exact = vec![-7; exact_room];
    let mut points = vec![-9; points_room];
    let [form, first, second, n] = degrees;
    let answer = compose(
        form,
        first,
        second,
        n,
        0,
        surface,
        path,
        &mut exact,
        &mut points,
    );
    if answer.number != 0 {
        assert_eq!(answer.count, 0);
        assert!(exact.iter().all(|&place| place == -7));
        assert!(points.iter().all(|&place| place == -9));
    }
    (answer.number, answer.place)
}

#[test]
fn run() {
    // Form 4 and degree 9 gives 1.
    assert_eq!(refused([4, 9, 0, 1], &[], &[], 13, 13), (1, 0));
    // m = 5 gives 2.
    assert_eq!(refused([1, 5, 0, 1], &[0; 6], &[0; 2], 13, 13), (2, 0));
    // (2, 3) gives 2.
    assert_eq!(refused([2, 2, 3, 1], &[0; 12], &[0; 4], 13, 13), (2, 0));
    // No control values gives 3.
    assert_eq!(refused([1, 1, 0, 1], &[], &[0, 1024], 13, 13), (3, 0));
    // Room L gives 5 and L+1 does not.
    let (degrees, surface, path) = ([1, 2, 0, 2], [0, 0, 600], [0, 512, 1024]);
    assert_eq!(refused(degrees, &surface, &path, 4, 5), (5, 0));
    assert_eq!(refused(degrees, &surface, &path, 5, 4), (5, 0));
    assert_eq!(refused(degrees, &surface, &path, 4, 4), (5, 0));
    assert_eq!(refused(degrees, &surface, &path, 5, 5), (0, 0));
    // 4097 at index 2 gives 6, place 2, also when a path number is 1025.
    let high = [0, 0, 4097];
    assert_eq!(refused(degrees, &high, &path, 5, 5), (6, 2));
    assert_eq!(refused(degrees, &high, &[0, 1025, 0], 5, 5), (6, 2));
    // Path −1 gives 7.
    assert_eq!(refused(degrees, &surface, &[0, -1, 0], 5, 5), (7, 1));
    // (512, 256, 255) gives 8.
    let balance = refused([3, 1, 0, 0], &[10, 20, 30], &[512, 256, 255], 1, 1);
    assert_eq!(balance, (8, 0));
}
