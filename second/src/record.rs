//! Records: a length in two bytes, a kind in two, and what they carry.
//!
//! All numbers are little-endian; the length counts the whole record.

use crate::line::Asked;
use crate::Answer;

/// The kind of a request that carries no age.
pub const REQUEST: u16 = 0x0001;

/// The kind of a request that carries its age, in two bytes after N.
pub const AGED: u16 = 0x0002;

/// The kind of a reply.
pub const REPLY: u16 = 0x8001;

/// The bytes before the numbers of a request or the points of a reply.
pub const HEAD: usize = 8;

/// The bytes before the numbers of a request that carries its age.
pub const AGED_HEAD: usize = 10;

/// The two bytes at `at` as a number.
pub fn word(record: &[u8], at: usize) -> u16 {
    u16::from_le_bytes([record[at], record[at + 1]])
}

/// Puts a number into the two bytes at `at`.
pub fn put(record: &mut [u8], at: usize, number: u16) {
    record[at..at + 2].copy_from_slice(&number.to_le_bytes());
}

/// Makes the length of a record true.
pub fn settle(record: &mut [u8]) {
    let length = u16::try_from(record.len()).expect("a record is shorter than 2^16 bytes");
    put(record, 0, length);
}

/// The record of a kind that carries four bytes and then these numbers.
fn write<'a>(kind: u16, four: [u32; 4], numbers: impl Iterator<Item = &'a i32>) -> Vec<u8> {
    let mut record = vec![0; 4];
    put(&mut record, 2, kind);
    record.extend(four.map(|number| u8::try_from(number).expect("it fits a byte")));
    for &number in numbers {
        let number = i16::try_from(number).expect("it fits two bytes");
        record.extend(number.to_le_bytes());
    }
    settle(&mut record);
    record
}

/// The record of a request whose numbers fit it. Neither rooms nor an age are
/// carried.
pub fn request(asked: &Asked) -> Vec<u8> {
    let four = [asked.form, asked.first, asked.second, asked.n];
    write(REQUEST, four, asked.surface.iter().chain(&asked.path))
}

/// The same with the age that the request has.
pub fn aged(asked: &Asked) -> Vec<u8> {
    let mut record = request(asked);
    put(&mut record, 2, AGED);
    record.splice(HEAD..HEAD, asked.age.to_le_bytes());
    settle(&mut record);
    record
}

/// The record of a reply with these points.
pub fn reply(answer: Answer, points: &[i32]) -> Vec<u8> {
    let four = [answer.number, answer.place, answer.count, 0];
    write(REPLY, four, points.iter())
}
