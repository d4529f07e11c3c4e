//! The random records, and this door beside others.

use second::beside::{doors, doors_agree};
use second::door::{door, ROOM};
use second::sample::records::Records;
use std::collections::BTreeMap;

/// Every record is answered as its kind says, and every kind comes; so does
/// every room.
#[test]
fn records_are_what_they_say() {
    let mut records = Records::new(7);
    let mut kinds: BTreeMap<String, u32> = BTreeMap::new();
    let mut rooms: BTreeMap<usize, u32> = BTreeMap::new();
    for _ in 0..60_000 {
        let record = records.draw();
        let mut reply = [0; ROOM];
        let count = door(&record.bytes, &mut reply);
        assert!(count >= 8);
        if let Some(number) = record.expect {
            let (kind, got) = (&record.kind, u32::from(reply[4]));
            assert_eq!(got, number, "{kind}: {:?}", record.bytes);
        }
        *kinds.entry(record.kind).or_default() += 1;
        *rooms.entry(record.room).or_default() += 1;
    }
    let count = |start: &str| kinds.keys().filter(|kind| kind.starts_with(start)).count();
    assert_eq!(count("alone"), 9);
    assert_eq!(count("pair"), 36);
    assert_eq!(count("age"), 54);
    assert_eq!(count("good"), 6);
    assert_eq!(count("short"), 20);
    assert_eq!(count("endless"), 4);
    assert!(kinds.values().all(|&times| times > 10), "{kinds:?}");
    for room in (0..=133).chain([1024]) {
        assert!(rooms.contains_key(&room), "{room}");
    }
}

#[test]
fn the_same_seed_gives_the_same_records() {
    let draw = |seed| {
        let mut records = Records::new(seed);
        let mut next = || {
            let record = records.draw();
            (record.bytes, record.room)
        };
        (0..500).map(|_| next()).collect::<Vec<_>>()
    };
    assert_eq!(draw(11), draw(11));
    assert_ne!(draw(11), draw(12));
}

#[test]
fn the_door_agrees_with_itself() {
    let tally = doors(1, 20_000, door).unwrap();
    assert_eq!(tally.all(), 20_000);
    assert_eq!(tally.numbers.values().sum::<u64>() + tally.silent, 20_000);
    let numbers: Vec<u8> = tally.numbers.keys().copied().collect();
    assert_eq!(numbers, [0, 1, 2, 6, 7, 8, 9, 10]);
    assert!(tally.silent > 1000);
    assert!(doors_agree(2, 100, door));
}

/// Asks a door that is wrong in some way; the difference must be found.
fn wrong(other: impl FnMut(&[u8], &mut [u8]) -> usize) {
    let difference = doors(3, 20_000, other).unwrap_err();
    assert_ne!(difference.this, difference.other);
    let shown = difference.to_string();
    assert!(shown.contains("this door tells"), "{shown}");
}

#[test]
fn wrong_doors_are_found() {
    // It tells another count.
    wrong(|request, reply| door(request, reply).max(8));
    // It asks only for the room of this reply.
    wrong(|request, reply| {
        let mut own = [0; ROOM];
        let count = door(request, &mut own);
        match reply.get_mut(..count) {
            Some(place) => place.copy_from_slice(&own[..count]),
            None => return 0,
        }
        count
    });
    // It clears the room beyond the reply.
    wrong(|request, reply| {
        let count = door(request, reply);
        if count > 0 {
            reply[count..].fill(0);
        }
        count
    });
    // It takes the length of a slice for that of two bytes.
    wrong(|request, reply| door(&request[..request.len() % 65536], reply));
    // It looks at the form before the kind of the record.
    wrong(|request, reply| {
        let count = door(request, reply);
        if count == 8 && reply[4] == 9 && request.len() > 8 && request[4] > 3 {
            reply[4] = 1;
        }
        count
    });
    // It asks for the age only after the body.
    wrong(|request, reply| {
        let count = door(request, reply);
        if count == 8 && reply[4] == 10 {
            let mut fresh = request.to_vec();
            fresh[8..10].fill(0);
            door(&fresh, reply);
            if reply[4] != 9 {
                reply[..8].copy_from_slice(&[8, 0, 1, 0x80, 10, 0, 0, 0]);
            }
        }
        count
    });
    // It takes 251 for fresh.
    wrong(|request, reply| {
        let mut fresh = request.to_vec();
        if request.len() > 10 && request[2] == 2 && request[8..10] == [251, 0] {
            fresh[8] = 250;
        }
        door(&fresh, reply)
    });
    // It looks at the form though the age is cut off.
    wrong(|request, reply| {
        let count = door(request, reply);
        let cut = matches!(request, [8, 0, 2, 0, ..] | [9, 0, 2, 0, ..]);
        if count == 8 && cut && request[4] > 3 {
            reply[4] = 1;
        }
        count
    });
    // It mistakes a single place.
    wrong(|request, reply| {
        let count = door(request, reply);
        if count == 8 && reply[4] == 6 && reply[5] == 14 {
            reply[5] = 13;
        }
        count
    });
}
