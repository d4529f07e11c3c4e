//! The comparisons for later tickets: they draw every kind, agree with this
//! program, and find the mistakes that the tickets' edits make.

use second::agree::*;
use second::card::{card, Part};
use second::convert::{convert, Converted};
use second::edition::{Edition, AGED, LONG, SHORT};
use second::patch::patch;
use second::replay::{replay, replay_of};
use second::rounding::nearest;
use second::salvage::{salvage, Salvaged};
use second::sheet::{sheet, Feed, Sheet};
use second::tick::tick;
use second::words::{words, worth};
use second::{entries, long, Answer, Request};

/// All went well, and at least this many kinds were drawn.
fn good(compared: Result<Tally, String>, kinds: usize) {
    let tally = compared.unwrap();
    assert!(tally.len() >= kinds, "{tally:?}");
    assert!(shown("questions", Ok(tally)));
}

/// A difference was found.
fn bad(compared: Result<Tally, String>) {
    let difference = compared.unwrap_err();
    assert!(difference.contains("differs"));
    assert!(!shown("questions", Err(difference)));
}

/// This program's long rides.
fn compose(
    request: &Request,
    high: &mut [i64],
    low: &mut [u64],
    points: &mut [i32],
) -> (Answer, u64) {
    let answer = long::compose(
        request.form,
        request.first,
        request.second,
        request.n,
        request.age,
        request.surface,
        request.path,
        high,
        low,
        points,
    );
    (answer, entries::told(request, &LONG, &answer))
}

#[test]
fn long_rides() {
    good(longs(1, 20_000, compose), 60);
    // The low array's room not asked.
    bad(longs(1, 4000, |request, high, low, points| {
        let mut own = vec![0; 64];
        let (answer, entries) = compose(request, high, &mut own, points);
        let count = low.len().min(answer.count as usize);
        low[..count].copy_from_slice(&own[..count]);
        (answer, entries)
    }));
    // The high word rounded toward zero.
    bad(longs(1, 4000, |request, high, low, points| {
        let (answer, entries) = compose(request, high, low, points);
        for place in 0..answer.count as usize {
            let numerator = worth(high[place], low[place]);
            high[place] = (numerator / (1 << 64)) as i64;
        }
        (answer, entries)
    }));
    // A refusal with a count.
    bad(longs(1, 4000, |request, high, low, points| {
        let (answer, entries) = compose(request, high, low, points);
        (answer, if answer.number == 6 { 31 } else { entries })
    }));
    // Form 2 counted.
    bad(longs(1, 4000, |request, high, low, points| {
        let (answer, entries) = compose(request, high, low, points);
        let counted = answer.number == 0 && request.form == 2;
        (answer, if counted { 12 } else { entries })
    }));
    assert_eq!(words(-1), (-1, u64::MAX));
}

#[test]
fn patches_of_every_kind() {
    good(patches(1, 4000, patch), 11);
    // i and k exchanged in the surface.
    bad(patches(
        1,
        400,
        |outer, domain, surface, path, exact, points| {
            let mut turned: Vec<i32> = surface.to_vec();
            if (outer, surface.len()) == (1, 3) {
                turned.reverse();
            }
            patch(outer, domain, &turned, path, exact, points)
        },
    ));
    // A place of the array beyond the answer is written.
    bad(patches(
        1,
        400,
        |outer, domain, surface, path, exact, points| {
            let answer = patch(outer, domain, surface, path, exact, points);
            if let Some(place) = points.get_mut(answer.count as usize) {
                *place = 0;
            }
            answer
        },
    ));
}

#[test]
fn ticks_of_every_kind() {
    good(ticks(1, 20_000, tick), 5);
    // k and 1024 − k exchanged.
    bad(ticks(1, 200, |points, k| {
        tick(points, if k <= 1024 { 1024 - k } else { k })
    }));
    // 26 points taken.
    bad(ticks(1, 2000, |points, k| {
        tick(&points[..points.len().min(25)], k)
    }));
    // Rounded only at the end.
    bad(ticks(1, 2000, |points, k| {
        let mut told = tick(points, k);
        if told.number == 0 && points.len() <= 8 {
            let exact = second::ride::drawn(points, i128::from(k), 1024);
            let whole = 1024_i128.pow(points.len() as u32 - 1);
            told.reading = nearest(65_536 * exact, whole) as i64;
        }
        told
    }));
}

#[test]
fn cards_of_every_kind() {
    good(cards(1, 20_000, card), 8);
    // Minus zero given back.
    bad(cards(1, 2000, |m, surface, part| {
        let mut told = card(m, surface, part);
        for number in &mut told.record.numerators[..told.record.count as usize] {
            if *number == 0.0 {
                *number = -0.0;
            }
        }
        told
    }));
    // NaN taken for 0.
    bad(cards(1, 2000, |m, surface, part| {
        let taken = |number: f64| if number.is_nan() { 0.0 } else { number };
        let part = match part {
            Part::Stay(at) => Part::Stay(taken(at)),
            Part::Line(from, to) => Part::Line(taken(from), taken(to)),
        };
        card(m, surface, part)
    }));
    // A fraction cut off.
    bad(cards(1, 2000, |m, surface, part| {
        let part = match part {
            Part::Stay(at) => Part::Stay(at.trunc()),
            line => line,
        };
        card(m, surface, part)
    }));
    // Unused places not cleared.
    bad(cards(1, 2000, |m, surface, part| {
        let mut told = card(m, surface, part);
        if told.record.count < 5 {
            told.record.numerators[4] = 1.0;
        }
        told
    }));
}

#[test]
fn conversions() {
    let replayed = |converted: Converted| {
        let five = replay(&converted.bytes);
        (converted, five)
    };
    good(
        converts(1, 8000, |trace| convert(trace).map(replayed)),
        40,
    );
    // A trace that ends at 127 or 128 is converted.
    bad(converts(1, 8000, |trace| {
        let converted = convert(trace).or_else(|| convert(&trace[..0]));
        converted.map(replayed)
    }));
    // Age 1 in place of 0.
    bad(converts(1, 8000, |trace| {
        let mut converted = convert(trace)?;
        if converted.changed == 3 {
            converted.bytes[8] = 1;
        }
        Some(replayed(converted))
    }));
    // The old trace by the new rule, and the new one by the old.
    bad(converts(1, 8000, |trace| {
        Some((convert(trace)?, replay(trace)))
    }));
    bad(converts(1, 8000, |trace| {
        let converted = convert(trace)?;
        let five = replay_of(&LONG, &converted.bytes);
        Some((converted, five))
    }));
}

#[test]
fn sheets_in_parts() {
    let fed = |longest, parts: &[Vec<u8>]| -> Vec<Sheet> {
        let mut feed = Feed::new(longest);
        let after = |part: &Vec<u8>| {
            feed.take(part);
            feed.sheet().clone()
        };
        parts.iter().map(after).collect()
    };
    good(sheets(1, 6000, 128, |parts| fed(128, parts)), 20);
    bad(sheets(1, 6000, 128, |parts| fed(126, parts)));
    // Each part read by itself.
    bad(sheets(1, 200, 128, |parts| {
        parts.iter().map(|part| sheet(128, part)).collect()
    }));
    // Least begun at 0.
    bad(sheets(1, 2000, 128, |parts| {
        let mut all = fed(128, parts);
        for sheet in &mut all {
            sheet.span = sheet.span.map(|(least, most)| (least.min(0), most));
        }
        all
    }));
}

#[test]
fn salvages_of_torn_traces() {
    let edition = Edition {
        longest: 128,
        ..SHORT
    };
    good(
        salvages(1, 6000, &edition, |torn| salvage(&edition, torn)),
        20,
    );
    bad(salvages(1, 6000, &LONG, |torn| salvage(&AGED, torn)));
    // Two neighbouring skips told apart.
    bad(salvages(1, 200, &edition, |torn| {
        let Salvaged { kept, skips } = salvage(&edition, torn);
        let apart = |(offset, length)| (0..length).map(move |at| (offset + at, 1));
        Salvaged {
            kept,
            skips: skips.into_iter().flat_map(apart).collect(),
        }
    }));
}
