//! The door: the rides to reckon by hand as bytes, each refusal on both
//! sides of its condition, the order, and the room. Requests without an age
//! are asked by the rule of before ticket 10 (rule Old traces); today's is asked beside it.

use second::door::{door as door_today, door_of, ROOM};
use second::edition::{LONG, TODAY};

/// The door of before ticket 10 (rule Old traces). Today's tells the same,
/// unless a request carries no age: then it tells STALE, or what comes before.
fn door(request: &[u8], reply: &mut [u8]) -> usize {
    let mut today = reply.to_vec();
    let count = door_of(&LONG, request, reply);
    let told = door_today(request, &mut today);
    let ageless = request.len() >= 8 && request[2..4] == [1, 0];
    if !ageless || count == 0 {
        assert_eq!((told, &today[..]), (count, &reply[..]));
        return count;
    }
    let framed = usize::from(u16::from_le_bytes([request[0], request[1]])) == request.len();
    let number = match reply[4] {
        9 if !framed => 9,
        1 => 1,
        2 => 2,
        _ => 10,
    };
    assert_eq!(today[..told], refused(number, 0));
    count
}

/// A request record; its length is true.
fn record(four: [u8; 4], surface: &[i16], path: &[i16]) -> Vec<u8> {
    let mut bytes = vec![0, 0, 0x01, 0x00];
    bytes.extend(four);
    for number in surface.iter().chain(path) {
        bytes.extend(number.to_le_bytes());
    }
    true_length(bytes)
}

/// A request record that carries its age; its length is true.
fn aged(four: [u8; 4], age: u16, surface: &[i16], path: &[i16]) -> Vec<u8> {
    let mut bytes = record(four, surface, path);
    bytes[2] = 0x02;
    bytes.splice(8..8, age.to_le_bytes());
    true_length(bytes)
}

/// The same bytes with a true length.
fn true_length(mut bytes: Vec<u8>) -> Vec<u8> {
    let length = (bytes.len() as u16).to_le_bytes();
    bytes[..2].copy_from_slice(&length);
    bytes
}

/// What the door tells; the room beyond the reply must stay.
fn told(request: &[u8]) -> Vec<u8> {
    let mut least = [0xa5; ROOM];
    let mut long = [0x5a; ROOM + 26];
    let count = door(request, &mut least);
    assert_eq!(door(request, &mut long), count);
    assert_eq!(least[..count], long[..count]);
    assert!(least[count..].iter().all(|&byte| byte == 0xa5));
    assert!(long[count..].iter().all(|&byte| byte == 0x5a));
    long[..count].to_vec()
}

/// A refused reply.
fn refused(number: u8, place: u8) -> Vec<u8> {
    vec![8, 0, 0x01, 0x80, number, place, 0, 0]
}

/// The reply that carries these points.
fn accepted(points: &[i16]) -> Vec<u8> {
    let count = points.len() as u8;
    let mut bytes = vec![8 + 2 * count, 0, 0x01, 0x80, 0, 0, count, 0];
    bytes.extend(points.iter().flat_map(|point| point.to_le_bytes()));
    bytes
}

#[test]
fn the_rides_reckoned_by_hand() {
    type Ride<'a> = ([u8; 4], &'a [i16], &'a [i16], &'a [i16]);
    let rides: [Ride; 12] = [
        ([1, 1, 0, 1], &[0, 100], &[0, 1024], &[0, 100]),
        ([1, 2, 0, 1], &[2, 3, -2], &[0, 1024], &[2, 3, -2]),
        ([1, 2, 0, 1], &[2, 3, -2], &[0, 512], &[2, 3, 2]),
        ([1, 2, 0, 1], &[-2, -3, 2], &[0, 512], &[-2, -3, -2]),
        ([1, 1, 0, 2], &[0, 100], &[0, 1024, 0], &[0, 100, 0]),
        (
            [1, 2, 0, 2],
            &[0, 0, 600],
            &[0, 512, 1024],
            &[0, 0, 100, 300, 600],
        ),
        (
            [2, 1, 1, 1],
            &[0, 0, 0, 400],
            &[0, 0, 1024, 1024],
            &[0, 0, 400],
        ),
        (
            [2, 1, 1, 1],
            &[0, 0, 0, 400],
            &[0, 1024, 1024, 0],
            &[0, 200, 0],
        ),
        ([3, 1, 0, 0], &[10, 20, 30], &[512, 256, 256], &[23]),
        ([1, 0, 0, 3], &[7], &[0; 4], &[7]),
        ([1, 4, 0, 0], &[0, 0, 0, 0, 4096], &[1024], &[4096]),
        ([1, 4, 0, 3], &[4096; 5], &[0, 0, 1024, 1024], &[4096; 13]),
    ];
    for (four, surface, path, points) in rides {
        assert_eq!(told(&record(four, surface, path)), accepted(points));
        for age in [0, 1, 249, 250] {
            let request = aged(four, age, surface, path);
            assert_eq!(told(&request), accepted(points));
        }
        for age in [251, 252, 256, 65535] {
            let request = aged(four, age, surface, path);
            assert_eq!(told(&request), refused(10, 0));
        }
    }
}

/// P2 and its reply, byte by byte.
#[test]
fn the_bytes_of_a_ride() {
    let request = [
        0x12, 0x00, 0x01, 0x00, 1, 2, 0, 1, 2, 0, 3, 0, 0xfe, 0xff, 0, 0, 0, 4,
    ];
    let reply = [0x0e, 0x00, 0x01, 0x80, 0, 0, 3, 0, 2, 0, 3, 0, 0xfe, 0xff];
    assert_eq!(told(&request), reply);
    let request = [
        0x14, 0x00, 0x02, 0x00, 1, 2, 0, 1, 0xfa, 0x00, 2, 0, 3, 0, 0xfe, 0xff, 0, 0, 0, 4,
    ];
    assert_eq!(told(&request), reply);
}

#[test]
fn room() {
    let good = record([1, 4, 0, 3], &[4096; 5], &[0, 0, 1024, 1024]);
    let small = record([1, 0, 0, 0], &[7], &[0]);
    let bad = record([4, 0, 0, 0], &[], &[]);
    for request in [&good[..], &small, &bad, &[], &good[..9]] {
        let full = told(request);
        for count in 0..=ROOM as u8 + 26 {
            let mut reply: Vec<u8> = (0..count).map(|at| 0xc0 ^ at).collect();
            let before = reply.clone();
            let told = door(request, &mut reply);
            if usize::from(count) < ROOM {
                assert_eq!(told, 0);
                assert_eq!(reply, before);
            } else {
                assert_eq!(told, full.len());
                assert_eq!(reply[..told], full);
                assert_eq!(reply[told..], before[told..]);
            }
        }
    }
}

#[test]
fn frame_by_fewer_than_8_bytes() {
    let good = record([1, 0, 0, 0], &[7], &[0]);
    for count in 0..8 {
        assert_eq!(told(&good[..count]), refused(9, 0));
        if count >= 2 {
            assert_eq!(told(&true_length(good[..count].to_vec())), refused(9, 0));
        }
    }
    // With 8 bytes there is a head: form 0 is seen.
    assert_eq!(told(&[8, 0, 1, 0, 0, 0, 0, 0]), refused(1, 0));
    assert_eq!(told(&[7, 0, 1, 0, 0, 0, 0]), refused(9, 0));
    // And an empty body is too short for every form.
    assert_eq!(told(&[8, 0, 1, 0, 1, 0, 0, 0]), refused(9, 0));
}

/// A request that is to carry its age needs 10 bytes, and KIND waits for
/// them; a request without an age needs 8.
#[test]
fn frame_by_fewer_than_10_bytes() {
    for form in [0, 1, 4] {
        for count in 0..14 {
            for kind in [1, 2] {
                let mut bytes = vec![0, 0, kind, 0, form, 0, 0, 0, 0, 0, 7, 0, 9, 0];
                bytes.truncate(count);
                let number = match (kind, count) {
                    (_, 0..=7) | (2, 8..=9) => 9,
                    _ if form != 1 => 1,
                    _ => 9,
                };
                if count < 2 {
                    assert_eq!(told(&bytes), refused(9, 0));
                } else if (kind, count, form) == (1, 12, 1) {
                    assert_eq!(told(&true_length(bytes)), accepted(&[0]));
                } else {
                    assert_eq!(told(&true_length(bytes)), refused(number, 0));
                }
            }
        }
    }
    let whole = aged([1, 0, 0, 0], 0, &[7], &[9]);
    assert_eq!(told(&whole), accepted(&[7]));
}

/// Every age there is; a body of a wrong length comes after.
#[test]
fn stale() {
    for age in 0..=u16::MAX {
        let good = aged([1, 0, 0, 0], age, &[7], &[9]);
        let empty = aged([1, 0, 0, 0], age, &[], &[]);
        if age <= 250 {
            assert_eq!(told(&good), accepted(&[7]));
            assert_eq!(told(&empty), refused(9, 0));
        } else {
            assert_eq!(told(&good), refused(10, 0));
            assert_eq!(told(&empty), refused(10, 0));
        }
    }
}

/// The first number of a record without an age is no age.
#[test]
fn no_age_is_age_0() {
    let request = record([1, 0, 0, 0], &[251], &[251]);
    assert_eq!(told(&request), accepted(&[251]));
}

#[test]
fn frame_by_length() {
    let good = record([1, 1, 0, 1], &[0, 100], &[0, 1024]);
    assert_eq!(told(&good), accepted(&[0, 100]));
    for length in 0..=u16::MAX {
        let mut bytes = good.clone();
        bytes[..2].copy_from_slice(&length.to_le_bytes());
        if usize::from(length) != good.len() {
            assert_eq!(told(&bytes), refused(9, 0));
        }
    }
    // The record itself is good, the slice is longer or shorter.
    let mut longer = good.clone();
    for _ in 0..300 {
        longer.push(0);
        assert_eq!(told(&longer), refused(9, 0));
    }
    assert_eq!(told(&good[..good.len() - 1]), refused(9, 0));
    // A length that is right but for 2^16.
    let mut longer = good.clone();
    longer.resize(good.len() + (1 << 16), 0);
    assert_eq!(told(&longer), refused(9, 0));
}

#[test]
fn frame_by_kind() {
    let good = record([1, 1, 0, 1], &[0, 100], &[0, 1024]);
    for kind in 0..=u16::MAX {
        let mut bytes = good.clone();
        bytes[2..4].copy_from_slice(&kind.to_le_bytes());
        if kind == 1 {
            assert_eq!(told(&bytes), accepted(&[0, 100]));
        } else {
            // As kind 2 the first number is the age, and the body too short.
            assert_eq!(told(&bytes), refused(9, 0));
        }
    }
    let good = aged([1, 1, 0, 1], 250, &[0, 100], &[0, 1024]);
    for kind in 0..=u16::MAX {
        let mut bytes = good.clone();
        bytes[2..4].copy_from_slice(&kind.to_le_bytes());
        if kind == 2 {
            assert_eq!(told(&bytes), accepted(&[0, 100]));
        } else {
            // As kind 1 the age is a number, and the body too long.
            assert_eq!(told(&bytes), refused(9, 0));
        }
    }
}

#[test]
fn kind() {
    for form in 0..=255 {
        // An empty body is seen only after KIND, and so is an old age.
        let (body, old) = if (1..=3).contains(&form) {
            (9, 10)
        } else {
            (1, 1)
        };
        let four = [form, 0, 0, 0];
        assert_eq!(told(&record(four, &[], &[])), refused(body, 0));
        assert_eq!(told(&aged(four, 250, &[], &[])), refused(body, 0));
        assert_eq!(told(&aged(four, 251, &[], &[])), refused(old, 0));
    }
}

/// All degrees of all forms: DEGREE exactly when they are beyond, and an
/// accepted count otherwise.
#[test]
fn degree() {
    let bytes = [0, 1, 2, 3, 4, 5, 6, 7, 127, 128, 252, 253, 254, 255];
    for form in 1..=3 {
        for first in bytes {
            for second in bytes {
                for n in bytes {
                    let [l, m, q] = [first, second, n].map(usize::from);
                    let legal = l + m <= 4 && q <= TODAY.most_path_degree && (form == 2 || m == 0);
                    if !legal {
                        for body in [0, 1, 2, 5] {
                            let four = [form, first, second, n];
                            let request = record(four, &[0; 5][..body], &[]);
                            assert_eq!(told(&request), refused(2, 0));
                            let request = aged(four, 65535, &[0; 5][..body], &[]);
                            assert_eq!(told(&request), refused(2, 0));
                        }
                        continue;
                    }
                    let (control, path): (usize, Vec<i16>) = match form {
                        1 => (l + 1, vec![512; q + 1]),
                        2 => ((l + 1) * (m + 1), vec![512; 2 * (q + 1)]),
                        _ => ((l + 1) * (l + 2) / 2, [1024, 0, 0].repeat(q + 1)),
                    };
                    let request = record([form, first, second, n], &vec![-9; control], &path);
                    assert_eq!(told(&request), accepted(&vec![-9; (l + m) * q + 1]));
                    // Every other length of the body is FRAME.
                    for count in 8..=request.len() + 40 {
                        let mut other = request.clone();
                        other.resize(count, 0);
                        if count != request.len() {
                            assert_eq!(told(&true_length(other)), refused(9, 0));
                        }
                    }
                }
            }
        }
    }
}

#[test]
fn value() {
    for at in 0..6 {
        for value in [-32768, -4097, -4096, 0, 4096, 4097, 32767] {
            let mut surface = [5; 6];
            surface[at] = value;
            let reply = told(&record([3, 2, 0, 0], &surface, &[1024, 0, 0]));
            if (-4096..=4096).contains(&value) {
                assert_eq!(reply[..8], [10, 0, 0x01, 0x80, 0, 0, 1, 0]);
            } else {
                assert_eq!(reply, refused(6, at as u8));
                surface[at..].fill(value);
                let reply = told(&record([3, 2, 0, 0], &surface, &[1024, 0, 0]));
                assert_eq!(reply, refused(6, at as u8));
            }
        }
    }
    // The largest place.
    let mut surface = [0; 15];
    surface[14] = 4097;
    let reply = told(&record([3, 4, 0, 0], &surface, &[1024, 0, 0]));
    assert_eq!(reply, refused(6, 14));
}

#[test]
fn parameter() {
    for at in 0..8 {
        for number in [-32768, -1, 0, 1024, 1025, 32767] {
            let mut path = [5; 8];
            path[at] = number;
            let reply = told(&record([2, 1, 0, 3], &[1, 2], &path));
            if (0..=1024).contains(&number) {
                assert_eq!(reply[4..8], [0, 0, 4, 0]);
            } else {
                assert_eq!(reply, refused(7, at as u8));
            }
        }
    }
}

#[test]
fn balance() {
    for point in 0..4 {
        for (change, number) in [(-1, 8), (0, 0), (1, 8)] {
            let mut path = [341, 342, 341].repeat(4);
            path[3 * point + 1] += change;
            let reply = told(&record([3, 0, 0, 3], &[77], &path));
            if number == 0 {
                assert_eq!(reply, accepted(&[77]));
            } else {
                assert_eq!(reply, refused(8, point as u8));
            }
        }
    }
}

/// What can be wrong, each a step of its own, in the order of the door.
const STEPS: usize = 8;

/// A record with these faults, and the reply to the first of them. STALE is
/// possible only where the age is carried.
fn with(faults: [bool; STEPS], carried: bool) -> (Vec<u8>, Vec<u8>) {
    let [length, other_kind, form, degree, stale, body, value, parameter] = faults;
    // A triangle of degree 2, or 5, the last point out of balance.
    let first: u8 = if degree { 5 } else { 2 };
    let control = usize::from((first + 1) * (first + 2) / 2);
    let mut surface = vec![5; control];
    let mut path = [1024, 0, 0, 0, 1024, 0, 0, 0, 1023];
    if value {
        surface[3] = -4097;
    }
    if parameter {
        path[4] = 1025;
    }
    let four = [if form { 4 } else { 3 }, first, 0, 2];
    let mut bytes = if carried {
        let age = if stale { 251 } else { 250 };
        aged(four, age, &surface, &path)
    } else {
        record(four, &surface, &path)
    };
    if body {
        bytes.extend([0, 0]);
        bytes = true_length(bytes);
    }
    if other_kind {
        bytes[3] = 0x80;
    }
    if length {
        bytes[0] ^= 1;
    }
    let replies = [
        refused(9, 0),
        refused(9, 0),
        refused(1, 0),
        refused(2, 0),
        refused(10, 0),
        refused(9, 0),
        refused(6, 3),
        refused(7, 4),
    ];
    let first = faults.iter().position(|&fault| fault);
    (bytes, first.map_or(refused(8, 2), |at| replies[at].clone()))
}

#[test]
fn order_in_pairs_and_beyond() {
    for set in 0_u32..1 << STEPS {
        let faults = std::array::from_fn(|at| set >> at & 1 == 1);
        for carried in [false, true] {
            if carried || !faults[4] {
                let (bytes, reply) = with(faults, carried);
                assert_eq!(told(&bytes), reply, "{faults:?}");
            }
        }
    }
}
