//! Ticket 6 (rule Two words): longer rides, in two words to a numerator.

use second::door::{door_of, FRAME};
use second::edition::{LONG, SHORT};
use second::line::Asked;
use second::long::compose;
use second::sample::accepted;
use second::words::{words, worth};
use second::xorshift::Xorshift;
use second::{record, ride, Answer, Request};

/// What the places of the three arrays hold beforehand.
const MARKS: (i64, u64, i32) = (-7, 7, -9);

/// An answer with its three arrays.
struct Told {
    answer: Answer,
    high: Vec<i64>,
    low: Vec<u64>,
    points: Vec<i32>,
}

/// Answers a request with these rooms; places beyond the count must stay.
fn told(asked: &Asked, [high, low, points]: [usize; 3]) -> Told {
    let mut told = Told {
        answer: Answer::accepted(0),
        high: vec![MARKS.0; high],
        low: vec![MARKS.1; low],
        points: vec![MARKS.2; points],
    };
    told.answer = compose(
        asked.form,
        asked.first,
        asked.second,
        asked.n,
        asked.age,
        &asked.surface,
        &asked.path,
        &mut told.high,
        &mut told.low,
        &mut told.points,
    );
    let count = told.answer.count as usize;
    assert!(told.high.split_off(count).iter().all(|&v| v == MARKS.0));
    assert!(told.low.split_off(count).iter().all(|&v| v == MARKS.1));
    assert!(told.points.split_off(count).iter().all(|&v| v == MARKS.2));
    told
}

fn asked(four: [u32; 4], surface: &[i32], path: &[i32]) -> Asked {
    let [form, first, second, n] = four;
    Asked {
        form,
        first,
        second,
        n,
        age: 0,
        surface: surface.to_vec(),
        path: path.to_vec(),
        rooms: None,
    }
}

/// The numerators of an accepted request.
fn numerators(asked: &Asked) -> Vec<i128> {
    let told = told(asked, [25; 3]);
    assert_eq!(told.answer.number, 0);
    told.high
        .iter()
        .zip(&told.low)
        .map(|(&high, &low)| worth(high, low))
        .collect()
}

/// Row 24 of Pascal's triangle, to its middle.
const ROW: [u64; 13] = [
    1, 24, 276, 2024, 10626, 42504, 134596, 346104, 735471, 1307504, 1961256, 2496144, 2704156,
];

/// All control values at a bound: numerator R is 24 over R times ±2^52. In the
/// middle 2704156 = 660·4096 + 796, so the high word is 660, or −661 below
/// zero, where 4096 − 796 is left.
#[test]
fn high_words_660_and_minus_661() {
    for (form, values) in [(1, 5), (3, 15)] {
        let path: &[i32] = match form {
            1 => &[0, 1, 512, 513, 700, 1023, 1024],
            _ => &[
                1024, 0, 0, 0, 1024, 0, 0, 0, 1024, 1, 2, 1021, 512, 512, 0, 0, 512, 512, 300, 300,
                424,
            ],
        };
        let top = told(&asked([form, 4, 0, 6], &vec![4096; values], path), [25; 3]);
        let bottom = told(&asked([form, 4, 0, 6], &vec![-4096; values], path), [25; 3]);
        assert_eq!(top.answer, Answer::accepted(25));
        assert_eq!(bottom.answer, Answer::accepted(25));
        assert_eq!((top.high[12], top.low[12]), (660, 796 << 52));
        assert_eq!((bottom.high[12], bottom.low[12]), (-661, 3300 << 52));
        for place in 0..=24 {
            let ways = ROW[place.min(24 - place)];
            let (high, low) = (ways / 4096, ways % 4096 * (1 << 52));
            assert_eq!((top.high[place], top.low[place]), (high as i64, low));
            assert_eq!(
                worth(bottom.high[place], bottom.low[place]),
                -worth(top.high[place], top.low[place])
            );
        }
        assert_eq!(top.points, [4096; 25]);
        assert_eq!(bottom.points, [-4096; 25]);
    }
}

/// P12's value is the low word, high word 0.
#[test]
fn p12_is_a_low_word() {
    let told = told(
        &asked([1, 4, 0, 3], &[4096; 5], &[0, 0, 1024, 1024]),
        [13; 3],
    );
    assert_eq!(told.high, [0; 13]);
    assert_eq!(told.low[6], 4_161_326_055_690_338_304);
    assert_eq!(told.points, [4096; 13]);
}

/// P2 and P4 with N = 6 by degree raising: a path point repeated seven times
/// stays where it is.
#[test]
fn a_stay_of_six() {
    // 2/4 + 2·3/4 − 2/4 = 1.5, and 1.5·1024² = 3·2^19 for each way
    let ride = asked([1, 2, 0, 6], &[2, 3, -2], &[512; 7]);
    let expected: Vec<i128> = [1, 12, 66, 220, 495, 792, 924, 792, 495, 220, 66, 12, 1]
        .map(|ways: i128| (3 * ways) << 19)
        .to_vec();
    assert_eq!(numerators(&ride), expected);
    assert_eq!(told(&ride, [13; 3]).points, [2; 13]);
    let mirrored = asked([1, 2, 0, 6], &[-2, -3, 2], &[512; 7]);
    assert_eq!(told(&mirrored, [13; 3]).points, [-2; 13]);
}

#[test]
fn degrees_and_rooms() {
    let number = |asked: &Asked, rooms| told(asked, rooms).answer.number;
    for n in 0..=6 {
        let ride = asked([1, 4, 0, n], &[0; 5], &vec![0; n as usize + 1]);
        let places = 4 * n as usize + 1;
        assert_eq!(told(&ride, [places; 3]).answer, Answer::accepted(places));
        for at in 0..3 {
            let mut rooms = [places; 3];
            rooms[at] -= 1;
            assert_eq!(number(&ride, rooms), 5, "array {at} is short");
        }
    }
    for n in [7, 8, u32::MAX] {
        let ride = asked([1, 4, 0, n], &[0; 5], &[0; 8]);
        assert_eq!(number(&ride, [64; 3]), 2);
    }
    // The order stays: a short array comes after the counts, before VALUE.
    let mut ride = asked([1, 4, 0, 6], &[0, 0, 5000, 0, 0], &[0; 7]);
    assert_eq!(number(&ride, [25, 24, 25]), 5);
    let refused = told(&ride, [25; 3]).answer;
    assert_eq!((refused.number, refused.place), (6, 2));
    ride.path.push(0);
    assert_eq!(number(&ride, [0; 3]), 4);
}

/// With N up to 3 nothing moves but the words.
#[test]
fn short_rides_stay() {
    let mut rng = Xorshift::new(61);
    for _ in 0..2000 {
        let ride = accepted(&mut rng, &SHORT);
        let (mut exact, mut points) = ([0; 13], [0; 13]);
        let answer = second::compose(
            ride.form,
            ride.first,
            ride.second,
            ride.n,
            ride.age,
            &ride.surface,
            &ride.path,
            &mut exact,
            &mut points,
        );
        let told = told(&ride, [13; 3]);
        assert_eq!(told.answer, answer);
        let count = answer.count as usize;
        assert_eq!(told.points, points[..count]);
        for (place, &numerator) in exact[..count].iter().enumerate() {
            let both = (told.high[place], told.low[place]);
            assert_eq!(both, words(i128::from(numerator)));
        }
    }
}

/// Moments k/q with q from 1 to 9: 29 of them differ, and a curve of degree
/// L ≤ 24 is fixed by 25. So this settles every numerator, by Bernstein's
/// formula and with no blossom. Control values of at most 100 keep all
/// readings below 100·2^40·9^24 < 2^123.
#[test]
fn the_exact_curve_is_the_surface_at_the_path() {
    let mut rng = Xorshift::new(62);
    let mut longest = 0;
    for _ in 0..400 {
        let mut ride = accepted(&mut rng, &LONG);
        for value in &mut ride.surface {
            *value %= 101;
        }
        let request = Request {
            form: ride.form,
            first: ride.first,
            second: ride.second,
            n: ride.n,
            age: ride.age,
            surface: &ride.surface,
            path: &ride.path,
        };
        let good = request.check(&LONG, 25).expect("it is accepted");
        let exact = numerators(&ride);
        longest = longest.max(exact.len());
        for q in 1..=9 {
            for k in 0..=q {
                let surface = ride::surface(&good.shape, &good.surface, &good.path, k, q);
                assert_eq!(ride::exact(&exact, k, q), surface);
            }
        }
        let points = told(&ride, [25; 3]).points;
        for (place, &point) in points.iter().enumerate() {
            let divisor = good.shape.divisor(place);
            let off = (2 * i128::from(point) * divisor - 2 * exact[place]).abs();
            assert!(off <= divisor);
        }
    }
    assert_eq!(longest, 25);
}

/// The reply room is 58 bytes, and a record with N = 6 is answered.
#[test]
fn the_door() {
    let mut rng = Xorshift::new(63);
    for _ in 0..500 {
        let ride = accepted(&mut rng, &LONG);
        let told = told(&ride, [25; 3]);
        let bytes = record::request(&ride);
        let mut reply = [0xee; 70];
        for room in [0, 34, 57] {
            assert_eq!(door_of(&LONG, &bytes, &mut reply[..room]), 0);
        }
        assert_eq!(reply, [0xee; 70]);
        let count = door_of(&LONG, &bytes, &mut reply[..58]);
        assert_eq!(reply[..count], record::reply(told.answer, &told.points));
        assert!(reply[count..].iter().all(|&byte| byte == 0xee));
    }
    // N = 7 is DEGREE, and a body one number short is FRAME.
    let mut bytes = record::request(&asked([1, 1, 0, 6], &[0, 1], &[0; 7]));
    let number = |bytes: &[u8]| {
        let mut reply = [0; 58];
        assert_eq!(door_of(&LONG, bytes, &mut reply), 8);
        u32::from(reply[4])
    };
    bytes[7] = 7;
    assert_eq!(number(&bytes), 2);
    bytes[7] = 5;
    assert_eq!(number(&bytes), FRAME.number);
}
