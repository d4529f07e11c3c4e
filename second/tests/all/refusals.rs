//! Each refusal on both sides of its condition, the places, and the order.

use second::edition::TODAY;
use second::line::Asked;
use second::{Answer, Form, Refusal, Shape};

/// The largest N.
const MOST: u32 = TODAY.most_path_degree as u32;

/// A request of this form and these degrees, its counts right and its rooms
/// exact: all travels 5, all points at (…, 1024).
fn plain(form: Form, first: u32, second: u32, n: u32) -> Asked {
    let shape = Shape {
        form,
        first: first as usize,
        second: second as usize,
        path_degree: n as usize,
    };
    let parts = form.numbers_per_point();
    let path = (1..=shape.path_count())
        .map(|at| if at % parts == 0 { 1024 } else { 0 })
        .collect();
    let room = shape.length() + 1;
    Asked {
        form: form.number(),
        first,
        second,
        n,
        age: 0,
        surface: vec![5; shape.control_count()],
        path,
        rooms: Some((room, room)),
    }
}

/// The answer's number and place; the rest of the answer is fixed by them.
fn told(asked: &Asked) -> (u32, u32) {
    let reply = asked.reply();
    let Answer {
        number,
        place,
        count,
    } = reply.answer;
    if number == 0 {
        let (r, n) = (asked.first + asked.second, asked.n);
        assert_eq!((place, count), (0, r * n + 1));
    } else {
        assert_eq!(count, 0);
        assert!(reply.exact.iter().all(|&at| at == -7), "{asked:?}");
        assert!(reply.points.iter().all(|&at| at == -9), "{asked:?}");
    }
    (number, place)
}

#[test]
fn kind() {
    for form in [Form::Curve, Form::Tensor, Form::Triangle] {
        let mut asked = plain(form, 1, 0, 1);
        assert_eq!(told(&asked), (0, 0));
        for wrong in [0, 4, 5, 255, 256, 257, 65537, 1 << 31, u32::MAX] {
            asked.form = wrong;
            assert_eq!(told(&asked), (1, 0));
        }
    }
}

#[test]
fn degree_of_forms_1_and_3() {
    for form in [Form::Curve, Form::Triangle] {
        for first in 0..=7 {
            for n in 0..=9 {
                for second in 0..=2 {
                    let mut asked = plain(form, first, second, n);
                    asked.rooms = Some((64, 64));
                    let legal = first <= 4 && n <= MOST && second == 0;
                    assert_eq!(told(&asked), (if legal { 0 } else { 2 }, 0));
                }
            }
        }
    }
}

#[test]
fn degree_of_form_2() {
    for first in 0..=6 {
        for second in 0..=6 {
            for n in 0..=8 {
                let mut asked = plain(Form::Tensor, first, second, n);
                asked.rooms = Some((64, 64));
                let legal = first + second <= 4 && n <= MOST;
                assert_eq!(told(&asked), (if legal { 0 } else { 2 }, 0));
            }
        }
    }
}

#[test]
fn huge_degrees_do_not_wrap() {
    let max = u32::MAX;
    let half = 1 << 31;
    let huge = [
        (max, 0, 0),
        (max, 1, 0),
        (1, max, 0),
        (max, 5, 3),
        (max - 1, 2, 1),
        (half, half, 1),
        (max, max, max),
        (0, max, 0),
        (half, 0, 0),
        (0, 0, max),
        (4, 0, 1 << 30),
        (2, 0, half),
        (65536, 65536, 0),
    ];
    for (first, second, n) in huge {
        for form in 1..=3 {
            for count in [0, 1, 2, 3] {
                let asked = Asked {
                    form,
                    first,
                    second,
                    n,
                    age: 251,
                    surface: vec![0; count],
                    path: vec![0; count],
                    rooms: Some((64, 64)),
                };
                let reply = asked.reply();
                assert_eq!((reply.answer.number, reply.answer.place), (2, 0));
            }
        }
    }
}

#[test]
fn stale() {
    for form in [Form::Curve, Form::Tensor, Form::Triangle] {
        let mut asked = plain(form, 1, 0, 0);
        for age in 0..=u16::MAX {
            asked.age = age;
            assert_eq!(told(&asked), (if age > 250 { 10 } else { 0 }, 0));
        }
    }
}

/// The numbers as they are given, in the order in which they are tested.
#[test]
fn numbers_and_order() {
    let numbers = Refusal::ALL.map(Refusal::number);
    assert_eq!(numbers, [1, 2, 10, 3, 4, 5, 6, 7, 8]);
}

#[test]
fn counts() {
    for (form, second) in [(Form::Curve, 0), (Form::Tensor, 2), (Form::Triangle, 0)] {
        for first in 0..=2 {
            for n in 0..=3 {
                let right = plain(form, first, second, n);
                for count in 0..=20 {
                    let mut asked = right.clone();
                    asked.surface.resize(count, 5);
                    let number = if count == right.surface.len() { 0 } else { 3 };
                    assert_eq!(told(&asked), (number, 0));

                    let mut asked = right.clone();
                    asked.path.resize(count, 0);
                    let number = if count == right.path.len() { 0 } else { 4 };
                    assert_eq!(told(&asked), (number, 0));
                }
            }
        }
    }
}

#[test]
fn room() {
    for (form, first, second) in [
        (Form::Curve, 4, 0),
        (Form::Tensor, 1, 3),
        (Form::Triangle, 3, 0),
        (Form::Curve, 0, 0),
    ] {
        for n in 0..=3 {
            let mut asked = plain(form, first, second, n);
            let least = ((first + second) * n + 1) as usize;
            for exact in [0, least - 1, least, least + 1, 64] {
                for points in [0, least - 1, least, least + 1, 64] {
                    asked.rooms = Some((exact, points));
                    let short = exact < least || points < least;
                    assert_eq!(told(&asked), (if short { 5 } else { 0 }, 0));
                }
            }
        }
    }
}

#[test]
fn value() {
    for (form, second) in [(Form::Curve, 0), (Form::Tensor, 1), (Form::Triangle, 0)] {
        let right = plain(form, 3, second, 1);
        for at in 0..right.surface.len() {
            for good in [-4096, -4095, 0, 4095, 4096] {
                let mut asked = right.clone();
                asked.surface[at] = good;
                assert_eq!(told(&asked), (0, 0));
            }
            for bad in [-4097, 4097, 65536, i32::MIN, i32::MAX] {
                let mut asked = right.clone();
                asked.surface[at] = bad;
                assert_eq!(told(&asked), (6, at as u32));
                // The least index counts.
                asked.surface[at..].fill(bad);
                assert_eq!(told(&asked), (6, at as u32));
            }
        }
    }
}

#[test]
fn parameter() {
    for (form, second) in [(Form::Curve, 0), (Form::Tensor, 1), (Form::Triangle, 0)] {
        let right = plain(form, 3, second, 3);
        for at in 0..right.path.len() {
            if form != Form::Triangle {
                for good in [0, 1, 1023, 1024] {
                    let mut asked = right.clone();
                    asked.path[at] = good;
                    assert_eq!(told(&asked), (0, 0));
                }
            }
            for bad in [-1, 1025, 65536, i32::MIN, i32::MAX] {
                let mut asked = right.clone();
                asked.path[at] = bad;
                assert_eq!(told(&asked), (7, at as u32));
                asked.path[at..].fill(bad);
                assert_eq!(told(&asked), (7, at as u32));
            }
        }
    }
}

#[test]
fn parameter_of_a_balanced_point() {
    let right = plain(Form::Triangle, 2, 0, 3);
    for point in 0..4 {
        let mut asked = right.clone();
        asked.path[3 * point..][..3].copy_from_slice(&[513, -1, 512]);
        assert_eq!(told(&asked), (7, 3 * point as u32 + 1));
    }
}

#[test]
fn balance() {
    let right = plain(Form::Triangle, 2, 0, 3);
    for point in 0..4 {
        for part in 0..3 {
            for (change, number) in [(-1, 8), (0, 0), (1, 8)] {
                let mut asked = right.clone();
                asked.path[3 * point..][..3].copy_from_slice(&[341, 342, 341]);
                asked.path[3 * point + part] += change;
                let place = if number == 0 { 0 } else { point as u32 };
                assert_eq!(told(&asked), (number, place));
            }
        }
        // The least point number counts.
        let mut asked = right.clone();
        asked.path[3 * point..].fill(0);
        assert_eq!(told(&asked), (8, point as u32));
        asked.path[3 * point..].fill(1024);
        assert_eq!(told(&asked), (8, point as u32));
    }
}

#[test]
fn forms_1_and_2_know_no_balance() {
    for form in [Form::Curve, Form::Tensor] {
        let mut asked = plain(form, 2, 0, 2);
        for value in [0, 1, 500, 1024] {
            asked.path.fill(value);
            assert_eq!(told(&asked), (0, 0));
        }
    }
}

/// A request with exactly these faults.
fn with(faults: &[Refusal]) -> Asked {
    let degree = if faults.contains(&Refusal::Degree) {
        5
    } else {
        2
    };
    let mut asked = plain(Form::Triangle, degree, 0, 2);
    for fault in faults.iter().rev() {
        match fault {
            Refusal::Kind => asked.form = 4,
            Refusal::Degree => {}
            Refusal::Stale => asked.age = 251,
            Refusal::Surface => asked.surface.push(5),
            Refusal::Path => asked.path.push(0),
            Refusal::Room => asked.rooms = Some((64, (degree * 2) as usize)),
            Refusal::Value => asked.surface[3] = 4097,
            Refusal::Parameter => asked.path[4] = -1,
            Refusal::Balance => asked.path[8] -= 1,
        }
    }
    asked
}

#[test]
fn order_in_pairs_and_beyond() {
    assert_eq!(told(&with(&[])), (0, 0));
    let place = |refusal| match refusal {
        Refusal::Value => 3,
        Refusal::Parameter => 4,
        Refusal::Balance => 2,
        _ => 0,
    };
    // All sets of faults: the first in the order is the answer. The pairs
    // are among them.
    for set in 1_u32..512 {
        let faults: Vec<Refusal> = (0..Refusal::ALL.len())
            .filter(|rank| set >> rank & 1 == 1)
            .map(|rank| Refusal::ALL[rank])
            .collect();
        let first = faults[0];
        assert_eq!(told(&with(&faults)), (first.number(), place(first)));
    }
}
