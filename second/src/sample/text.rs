//! Lines that are oddly written, cannot be read, or are passed over.

use crate::line::{Asked, LONGEST};
use crate::xorshift::Xorshift;

/// Lines that are passed over.
pub const PASSED_OVER: [&[u8]; 11] = [
    b"",
    b" ",
    b"\t",
    b" \t  \t",
    b"#",
    b"# a ride to pass over",
    b"#1 1 0 1 2 0 100 2 0 1024",
    b"#\r",
    b"\r",
    b"\t\r \r",
    b"# \xff\x00 +",
];

/// Words that are no whole numbers.
pub const NO_NUMBERS: [&[u8]; 24] = [
    b"x",
    b"+5",
    b"+0",
    b"1.5",
    b"1.",
    b"-",
    b"--3",
    b"- 3",
    b"+-3",
    b"0x10",
    b"1e3",
    b"5-",
    b"3,",
    b"1_000",
    b"\0",
    b"\xff",
    b"\xd9\xa3",
    b"\xc2\xa05",
    b"7\x0b",
    b"\x0c3",
    b"\r\x0b",
    b"#",
    b"age=",
    b"age=3",
];

/// The words of a request line.
fn words(asked: &Asked) -> Vec<Vec<u8>> {
    asked
        .line()
        .split(' ')
        .map(|word| word.as_bytes().to_vec())
        .collect()
}

/// An oddly written line that reads as the same request, and its name.
pub fn odd(rng: &mut Xorshift, asked: &Asked, turn: usize) -> (&'static str, Vec<u8>) {
    let mut words = words(asked);
    let at = rng.below(words.len());
    match turn % 11 {
        0 => ("tabs", words.join(&b'\t')),
        1 => ("many blanks", words.join(&b" \t  "[..])),
        2 => {
            words.insert(0, Vec::new());
            words.push(b"\t ".to_vec());
            ("blanks around", words.join(&b' '))
        }
        3 => {
            words.iter_mut().for_each(|word| zeros(word, 1 + at));
            ("zeros in front", words.join(&b' '))
        }
        4 => {
            for word in words.iter_mut().filter(|word| *word == b"0") {
                *word = b"-0".to_vec();
            }
            ("minus zero", words.join(&b' '))
        }
        5 => {
            let zero: [&[u8]; 2] = [b"age=0", b"age=00"];
            words.push(rng.pick(&zero).to_vec());
            ("age 0 written", words.join(&b' '))
        }
        6 => {
            words.extend([b"25".to_vec(), b"64".to_vec(), b"age=0".to_vec()]);
            ("rooms and age 0 written", words.join(&b' '))
        }
        7 => ("carriage returns", words.join(&b"\r"[..])),
        8 => {
            words[at].splice(0..0, *b"\r ");
            words.push(b"\r".to_vec());
            ("a carriage return at the end", words.join(&b' '))
        }
        9 => {
            let spare = LONGEST - words.join(&b' ').len();
            words[at].extend(vec![b' '; spare]);
            ("just as long as may be, by blanks", words.join(&b' '))
        }
        _ => {
            let spare = LONGEST - words.join(&b' ').len();
            zeros(&mut words[at], spare);
            ("just as long as may be, by zeros", words.join(&b' '))
        }
    }
}

/// Puts zeros before the digits of a word.
pub fn zeros(word: &mut Vec<u8>, count: usize) {
    let sign = usize::from(word.starts_with(b"-"));
    word.splice(sign..sign, vec![b'0'; count]);
}

/// A line that cannot be read, and its name. The request names no rooms and
/// is of age 0.
pub fn unreadable(rng: &mut Xorshift, asked: &Asked, turn: usize) -> (&'static str, Vec<u8>) {
    let mut words = words(asked);
    let count_at = [4, 5 + asked.surface.len()];
    let any = rng.below(words.len());
    let (name, at, wrong): (_, usize, &[u8]) = match turn % 16 {
        0 | 1 => ("no number", any, rng.pick(&NO_NUMBERS)),
        2 => {
            let far: [&[u8]; 4] = [b"-1", b"4294967296", b"18446744073709551617", &[b'9'; 99]];
            ("form or degree too far", rng.below(4), rng.pick(&far))
        }
        3 => {
            let at = 5 + rng.below(asked.surface.len());
            ("control value too far", at, far_signed(rng))
        }
        4 => {
            let at = count_at[1] + 1 + rng.below(asked.path.len());
            ("path number too far", at, far_signed(rng))
        }
        5 => {
            let far: [&[u8]; 4] = [b"-1", b"65", b"4294967297", b"18446744073709551617"];
            ("count too far", rng.pick(&count_at), rng.pick(&far))
        }
        6 => {
            let mut list = asked.clone();
            list.surface.resize(65, 0);
            return ("65 control values", list.line().into_bytes());
        }
        7 => {
            words.push(b"64".to_vec());
            words.push(b"25".to_vec());
            let far: [&[u8]; 4] = [b"-1", b"65", b"4294967309", b"x"];
            let at = words.len() - 1 - rng.below(2);
            ("room too far", at, rng.pick(&far))
        }
        8 => {
            words.truncate(1 + rng.below(words.len() - 1));
            return ("too few words", words.join(&b' '));
        }
        9 => {
            words.extend(vec![b"25".to_vec(); rng.pick(&[1, 3])]);
            let far: [&[u8]; 11] = [
                b"age=",
                b"age=x",
                b"age=-1",
                b"age=-0",
                b"age=+1",
                b"age=65536",
                b"age=4294967296",
                b"age=18446744073709551616",
                b"age=1=1",
                b"age=1\x0b",
                b"age=age=1",
            ];
            ("age too far", words.len() - 1, rng.pick(&far))
        }
        10 => {
            words.extend(vec![b"25".to_vec(); 4 + rng.below(3)]);
            return ("many words left over", words.join(&b' '));
        }
        11 => {
            // One word is missing, or four are left over with it.
            let mut count = asked.path.len() + 1;
            if rng.once_in(2) {
                count -= 2;
                words.extend(vec![b"25".to_vec(); 3]);
            }
            words[count_at[1]] = count.to_string().into_bytes();
            return ("count and words differ", words.join(&b' '));
        }
        12 => {
            let spare = LONGEST + rng.pick(&[1, 2, 5000]) - words.join(&b' ').len();
            match rng.below(2) {
                0 => zeros(&mut words[any], spare),
                _ => words[any].extend(vec![b' '; spare]),
            }
            return ("too long", words.join(&b' '));
        }
        13 => {
            // A number alone is no age, and an age is the last word.
            let late: [&[u8]; 10] = [
                b"1024",
                b"0",
                b"Age=1",
                b"age",
                b"age = 1",
                b"age= 1",
                b"age=1 2",
                b"age=1 2 2",
                b"2 age=1 2",
                b"2 age=1",
            ];
            words.push(rng.pick(&late).to_vec());
            return ("age not marked, or not the last", words.join(&b' '));
        }
        14 => {
            words.extend([b"25".to_vec(), b"25".to_vec(), b"25".to_vec()]);
            return ("rooms and a number", words.join(&b' '));
        }
        _ => {
            let late: [&[u8]; 4] = [b"\x0b", b" \x0c", b" # late", b"#"];
            words[0].insert(0, b' ');
            match rng.below(2) {
                0 => words[0][0] = b'\x0b',
                _ => words.last_mut().unwrap().extend(rng.pick(&late)),
            }
            return ("stray at an end", words.join(&b' '));
        }
    };
    words[at] = wrong.to_vec();
    // A line that begins with `#` would be passed over.
    words[0].splice(0..0, wrong.starts_with(b"#").then_some(b' '));
    (name, words.join(&b' '))
}

/// A number beyond 32 signed bits.
pub fn far_signed(rng: &mut Xorshift) -> &'static [u8] {
    let far: [&[u8]; 5] = [
        b"2147483648",
        b"-2147483649",
        b"4294967295",
        b"-4294967296",
        b"18446744073709551616",
    ];
    rng.pick(&far)
}
