//! Request lines and answer lines, and the samples made of them.

use second::line::{answer, passed_over, read, LONGEST};
use second::sample::lines::Lines;
use second::sample::Expect;
use std::collections::BTreeMap;

/// The answer line of a readable request line.
fn told(line: &str) -> String {
    read(line.as_bytes()).unwrap().reply().line()
}

#[test]
fn answer_lines() {
    let p1 = "1 1 0 1 2 0 100 2 0 1024";
    assert_eq!(told(p1), "0 0 2 2 | 0 102400 | 0 100");
    assert_eq!(told("4 9 0 1 0 0"), "1 0 0 0 | |");
    let rooms = |rooms: &str| told(&format!("{p1} {rooms}"));
    assert_eq!(rooms("2 2"), "0 0 2 2 | 0 102400 | 0 100");
    assert_eq!(rooms("4 3"), "0 0 2 2 | 0 102400 -7 -7 | 0 100 -9");
    assert_eq!(rooms("1 3"), "5 0 0 0 | -7 | -9 -9 -9");
    assert_eq!(rooms("0 2"), "5 0 0 0 | | -9 -9");
    assert_eq!(rooms("2 0"), "5 0 0 0 | -7 -7 |");
    assert_eq!(rooms("0 0"), "5 0 0 0 | |");
    assert_eq!(
        told("1 1 0 1 2 0 4097 2 0 1025 1 2"),
        "5 0 0 0 | -7 | -9 -9"
    );
    assert_eq!(told("1 1 0 1 2 0 4097 2 0 1025"), "6 1 0 0 | |");
}

/// After the path numbers come, if wanted, two rooms and then a marked age.
#[test]
fn ages() {
    let p1 = "1 1 0 1 2 0 100 2 0 1024";
    let with = |words: &str| told(&format!("{p1} {words}"));
    let good = "0 0 2 2 | 0 102400 | 0 100";
    for words in [
        "",
        "age=0",
        "age=7",
        "age=249",
        "age=250",
        "age=0250",
        "2 2",
        "2 2 age=0",
        "2 2 age=250",
        "2 2 age=250\r",
    ] {
        assert_eq!(with(words), good);
    }
    assert_eq!(with("age=251"), "10 0 0 0 | |");
    assert_eq!(with("age=65535"), "10 0 0 0 | |");
    assert_eq!(with("3 2 age=250"), "0 0 2 2 | 0 102400 -7 | 0 100");
    assert_eq!(with("3 2 age=251"), "10 0 0 0 | -7 -7 -7 | -9 -9");
    assert_eq!(with("1 2 age=251"), "10 0 0 0 | -7 | -9 -9");
    assert_eq!(with("1 2 age=250"), "5 0 0 0 | -7 | -9 -9");
    for words in [
        "0",
        "251",
        "x",
        "2",
        "2 2 0",
        "2 2 2 2",
        "age=",
        "age=x",
        "age=65536",
        "age=-1",
        "age=-0",
        "age=+1",
        "Age=1",
        "age",
        "age =1",
        "age= 1",
        "age=1 2",
        "age=1 2 2",
        "age=1 age=1",
        "2 age=1",
        "2 2 age=65536",
        "65 2 age=0",
        "2 2 age=0 0",
    ] {
        assert!(read(format!("{p1} {words}").as_bytes()).is_err(), "{words}");
    }
    let read = |words: &str| read(format!("{p1} {words}").as_bytes()).unwrap();
    assert_eq!((read("").age, read("").rooms), (0, None));
    let alone = read("age=13");
    assert_eq!((alone.age, alone.rooms), (13, None));
    assert_eq!((read("13 9").age, read("13 9").rooms), (0, Some((13, 9))));
    let three = read("13 9 age=65535");
    assert_eq!((three.age, three.rooms), (65535, Some((13, 9))));
    for words in ["age=13", "13 9", "13 9 age=65535"] {
        assert_eq!(read(words).line(), format!("{p1} {words}"));
    }
    assert_eq!(read("age=0").line(), p1);
}

#[test]
fn blanks_zeros_and_signs() {
    let plain = read(b"1 0 0 0 1 -5 1 7").unwrap();
    for same in [
        &b"\t1\t0 0  0 1\t -5 1 7 "[..],
        b"0001 00 0 0 01 -0005 1 007",
        b"1 -0 -00 0 1 -5 1 7",
        b"\r1 0\r0 0 1 -5 1 7\r",
    ] {
        assert_eq!(read(same).unwrap(), plain);
    }
}

#[test]
fn ends_of_the_numbers() {
    let line = "4294967295 4294967295 0 4294967295 1 -2147483648 1 2147483647 64 0";
    assert_eq!(read(line.as_bytes()).unwrap().line(), line);
    let line = &format!("{line} age=65535");
    assert_eq!(read(line.as_bytes()).unwrap().line(), *line);
    for bad in [
        "4294967296 0 0 0 0 0",
        "-1 0 0 0 0 0",
        "0 0 0 4294967296 0 0",
        "0 0 0 0 1 2147483648 0",
        "0 0 0 0 1 -2147483649 0",
        "0 0 0 0 0 1 2147483648",
        "0 0 0 0 65 0",
        "0 0 0 0 -1 0",
        "0 0 0 0 0 65",
        "0 0 0 0 0 0 65 0",
        "0 0 0 0 0 0 0 -1",
        "0 0 0 0 0 0 age=65536",
        "0 0 0 0 0 0 age=-1",
        "0 0 0 0 0 0 0 0 age=65536",
        "0 0 0 0 0 0 0",
        "0 0 0 0 0 0 0 0 0",
        "0 0 0 0 0 0 0 0 0 0",
        "0 0 0 0 0",
        "0 0 0 0 1 5",
        "0 0 0 0 1 5 1",
        "0",
        " #",
        "0 0 0 0 0 0\x0b",
        "0 0 0 0 0 +0",
        "0 0 0 0 0 - 0",
        "99999999999999999999999999999999 0 0 0 0 0",
        "-99999999999999999999999999999999 0 0 0 0 0",
    ] {
        assert!(!passed_over(bad.as_bytes()));
        assert!(read(bad.as_bytes()).is_err(), "{bad}");
    }
}

#[test]
fn the_longest_line() {
    let mut line = b"1 0 0 0 1 -5 1 7".to_vec();
    line.resize(LONGEST, b' ');
    assert!(read(&line).is_ok());
    line.push(b' ');
    assert!(read(&line).is_err());
}

#[test]
fn lines_passed_over() {
    for line in [
        &b""[..],
        b" ",
        b"\t \t",
        b"\r",
        b" \r",
        b"#",
        b"# x",
        b"#\r",
    ] {
        assert!(passed_over(line));
    }
    for line in [&b"\x0c"[..], b" #", b"\t#", b"\r#", b"0", b"\x0b"] {
        assert!(!passed_over(line));
    }
}

/// A line that begins with the word `tick` is read as a net and a moment, and
/// every other line as a request. The readings are worked out by hand: 7/2 of
/// a unit, and 2, 3, -2 at a half: 5/2, 1/2, then 3/2.
#[test]
fn tick_lines() {
    let told = |line: &str| answer(line.as_bytes());
    let good = |line: &str| told(line).expect("it is readable");
    assert_eq!(good("tick 2 0 7 512"), "0 0 229376");
    assert_eq!(good("tick 3 2 3 -2 512"), "0 0 98304");
    assert_eq!(good("\ttick  1 -4096\r 1024 "), "0 0 -268435456");
    assert_eq!(good("tick 0 9"), "3 0 0");
    assert_eq!(
        good("tick 26 9 9 9 9 9 9 9 9 9 9 9 9 9 9 9 9 9 9 9 9 9 9 9 9 9 9999 1025"),
        "3 0 0"
    );
    assert_eq!(good("tick 2 7 4097 1025"), "6 1 0");
    assert_eq!(good("tick 2 7 4096 1025"), "11 0 0");
    assert_eq!(good("tick 1 0 4294967295"), "11 0 0");
    for line in [
        "tick",
        "tick 1",
        "tick 1 0",
        "tick 1 0 0 0",
        "tick 1 0 -1",
        "tick 1 0 4294967296",
        "tick 65 0",
        "tick 1 2147483648 0",
        "tick 1 0 0 age=0",
        "ticks 1 0 0",
        "Tick 1 0 0",
        "tick1 0 0",
        "1 tick 0 0",
    ] {
        assert!(told(line).is_err(), "{line}");
    }
    assert_eq!(
        good("1 1 0 1 2 0 100 2 0 1024"),
        "0 0 2 2 | 0 102400 | 0 100"
    );
}

/// A line that begins with the word `patch` is read as a patch: by hand, a
/// whole plane, whose corners stand in their own order, and one value.
#[test]
fn patch_lines() {
    let told = |line: &str| answer(line.as_bytes());
    let good = |line: &str| told(line).expect("it is readable");
    let plane = "patch 1 1 3 10 20 30 9 0 0 1024 0 1024 0 1024 0 0";
    assert_eq!(good(plane), "0 0 3 | 10240 20480 30720 | 10 20 30");
    assert_eq!(
        good(&format!("{plane} 4 3")),
        "0 0 3 | 10240 20480 30720 -7 | 10 20 30"
    );
    assert_eq!(good(&format!("{plane} 2 3")), "5 0 0 | -7 -7 | -9 -9 -9");
    assert_eq!(good("patch 4 0 0 0"), "2 0 0 | |");
    assert_eq!(good("patch 0 0 1 7 3 512 256 256"), "0 0 1 | 7 | 7");
    assert_eq!(good("patch 0 0 1 7 3 512 256 255"), "8 0 0 | |");
    for line in [
        "patch",
        "patch 1",
        "patch 0 0 1 7 3 512 256 256 1",
        "patch 0 0 1 7 3 512 256 256 age=0",
    ] {
        assert!(told(line).is_err(), "{line}");
    }
}

/// Every sample is answered as its kind says, and every kind comes.
#[test]
fn samples_are_what_they_say() {
    let mut sampler = Lines::new(7);
    let mut kinds: BTreeMap<String, u32> = BTreeMap::new();
    for _ in 0..64_000 {
        if let Some(aside) = sampler.aside() {
            assert!(passed_over(aside));
        }
        let sample = sampler.draw();
        assert!(!passed_over(&sample.line));
        assert!(!sample.line.contains(&b'\n'));
        let got = match answer(&sample.line) {
            Err(_) => Expect::Unreadable,
            Ok(line) => {
                let number = line.split(' ').next().and_then(|word| word.parse().ok());
                Expect::Number(number.expect("an answer begins with its number"))
            }
        };
        let shown = sample.line.escape_ascii();
        assert_eq!(got, sample.expect, "{}: {shown}", sample.kind);
        *kinds.entry(sample.kind).or_default() += 1;
    }
    let pairs = kinds.keys().filter(|kind| kind.starts_with("pair"));
    assert_eq!(pairs.count(), 36);
    let alone = kinds.keys().filter(|kind| kind.starts_with("alone"));
    assert_eq!(alone.count(), 9);
    let ages = kinds.keys().filter(|kind| kind.starts_with("age"));
    assert_eq!(ages.count(), 54);
    let ticks = kinds.keys().filter(|kind| kind.starts_with("tick"));
    assert_eq!(ticks.count(), 5 + 5 + 9);
    let patches = kinds.keys().filter(|kind| kind.starts_with("patch"));
    assert!(patches.count() > 12);
    assert!(kinds.values().all(|&times| times > 30), "{kinds:?}");
}

#[test]
fn the_same_seed_gives_the_same_samples() {
    let lines = |seed| {
        let mut sampler = Lines::new(seed);
        (0..500).map(|_| sampler.draw().line).collect::<Vec<_>>()
    };
    assert_eq!(lines(11), lines(11));
    assert_ne!(lines(11), lines(12));
}
