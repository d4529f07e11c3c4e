//! The proved composer, door, replay, converter, salvage, reading at a tick, card and patches, as Rust calls them: none has a condition on its arguments, and slices
//! of which one is exclusive never overlap, so all are safe. Each program links only the archive that it uses, so each is
//! compiled where it is called.

use second::card::{Carded, Part, Record};
use second::replay::Five;
use second::sheet::Sheet;
use second::tick::Tick;
use second::Answer;

// each slice crosses as a pointer and a length in elements
extern "C" {
    fn lean_compose(
        form: u32,
        first: u32,
        second: u32,
        n: u32,
        age: u16,
        surface: *const i32,
        surface_length: usize,
        path: *const i32,
        path_length: usize,
        high: *mut i64,
        high_length: usize,
        low: *mut u64,
        low_length: usize,
        points: *mut i32,
        points_length: usize,
        words: *mut u64,
        words_length: usize,
    ) -> u32;
    fn door_reply(request: *const u8, request_length: usize, reply: *mut u8, reply_length: usize) -> usize;
    fn lean_replay(trace: *const u8, trace_length: usize, words: *mut u64, words_length: usize) -> u32;
    fn lean_sheet(
        held: *mut [u8; 256],
        counts: *mut [u64; 3],
        refusals: *mut [u64; 11],
        span: *mut [i64; 2],
        part: *const u8,
        part_length: usize,
    );
    fn lean_convert(
        held: *mut [u8; 256],
        words: *mut [u64; 5],
        part: *const u8,
        part_length: usize,
        out: *mut u8,
        out_length: usize,
    );
    fn lean_convert_end(held: *const [u8; 256], words: *const [u64; 5], out: *mut u8, out_length: usize) -> usize;
    fn lean_salvage(
        window: *const u8,
        window_length: usize,
        last: u32,
        words: *mut u64,
        words_length: usize,
        line: *mut u8,
        line_length: usize,
    ) -> u32;
    fn lean_tick(points: *const i32, points_length: usize, k: u32, words: *mut i64, words_length: usize) -> u32;
    fn lean_card(
        m: u32,
        surface: *const i32,
        surface_length: usize,
        line: u32,
        first: f64,
        second: f64,
        numerators: *mut f64,
        numerators_length: usize,
        words: *mut u64,
        words_length: usize,
    ) -> u32;
    fn lean_patch(
        n: u32,
        domain: u32,
        surface: *const i32,
        surface_length: usize,
        path: *const i32,
        path_length: usize,
        exact: *mut i64,
        exact_length: usize,
        points: *mut i32,
        points_length: usize,
        words: *mut u64,
        words_length: usize,
    ) -> u32;
}

/// Answers one request (rule Forms and degrees; 01), and tells how many net entries were formed for it.
#[inline]
#[allow(clippy::too_many_arguments)]
pub fn compose(
    form: u32,
    first: u32,
    second: u32,
    n: u32,
    age: u16,
    surface: &[i32],
    path: &[i32],
    high: &mut [i64],
    low: &mut [u64],
    points: &mut [i32],
) -> (Answer, u64) {
    let mut words = [0; 4];
    let code = unsafe {
        lean_compose(
            form,
            first,
            second,
            n,
            age,
            surface.as_ptr(),
            surface.len(),
            path.as_ptr(),
            path.len(),
            high.as_mut_ptr(),
            high.len(),
            low.as_mut_ptr(),
            low.len(),
            points.as_mut_ptr(),
            points.len(),
            words.as_mut_ptr(),
            words.len(),
        )
    };
    assert_eq!(code, 0, "four words are enough");
    let [number, place, count] = [words[0], words[1], words[2]].map(|word| word as u32);
    (Answer { number, place, count }, words[3])
}

/// Judges and composes one request: `include/lean_door.h` says what the bytes are.
#[inline]
pub fn door(request: &[u8], reply: &mut [u8]) -> usize {
    unsafe { door_reply(request.as_ptr(), request.len(), reply.as_mut_ptr(), reply.len()) }
}

/// The five numbers of a trace.
#[inline]
pub fn replay(trace: &[u8]) -> Five {
    let mut words = [0; 5];
    let code = unsafe { lean_replay(trace.as_ptr(), trace.len(), words.as_mut_ptr(), words.len()) };
    assert_eq!(code, 0, "five words are enough");
    let [calls, same, differ, first, rest] = words;
    (calls, same, differ, first, rest)
}

/// The state of a daily sheet; zeros have taken nothing.
#[derive(Clone, Debug, PartialEq, Eq)]
pub struct Day {
    held: [u8; 256],
    counts: [u64; 3],
    refusals: [u64; 11],
    span: [i64; 2],
}

impl Default for Day {
    fn default() -> Self {
        Day { held: [0; 256], counts: [0; 3], refusals: [0; 11], span: [0; 2] }
    }
}

impl Day {
    /// Takes the next part.
    #[inline]
    pub fn take(&mut self, part: &[u8]) {
        let Day { held, counts, refusals, span } = self;
        unsafe { lean_sheet(held, counts, refusals, span, part.as_ptr(), part.len()) }
    }

    /// The sheet of what has come.
    pub fn sheet(&self) -> Sheet {
        let [least, most] = self.span.map(|point| i16::try_from(point).expect("a point has two bytes"));
        Sheet {
            odd: self.counts[1],
            refusals: self.refusals,
            span: (self.counts[2] != 0).then_some((least, most)),
        }
    }
}

/// The converter of old traces; zeros have taken nothing.
#[derive(Clone, Debug, PartialEq, Eq)]
pub struct Old {
    held: [u8; 256],
    words: [u64; 5],
}

impl Default for Old {
    fn default() -> Self {
        Old { held: [0; 256], words: [0; 5] }
    }
}

impl Old {
    /// The most bytes of a part that are taken at once, and the room for what they put out.
    pub const PART: usize = 65536;
    pub const ROOM: usize = 74016;
    /// The room for what is still kept at the end.
    pub const LAST: usize = 256;

    /// Takes the next part; tells how many of its bytes, and how many were put to the front of `out`.
    #[inline]
    pub fn take(&mut self, part: &[u8], out: &mut [u8]) -> (usize, usize) {
        let Old { held, words } = self;
        unsafe { lean_convert(held, words, part.as_ptr(), part.len(), out.as_mut_ptr(), out.len()) }
        (words[2] as usize, words[3] as usize)
    }

    /// Puts what is still kept at the end to the front of `out`; tells how many bytes.
    #[inline]
    pub fn end(&self, out: &mut [u8]) -> usize {
        unsafe { lean_convert_end(&self.held, &self.words, out.as_mut_ptr(), out.len()) }
    }

    /// How many requests were changed; none where the trace cannot be converted.
    pub fn changed(&self) -> Option<u64> {
        let [_, changed, _, _, refused] = self.words;
        (refused == 0).then_some(changed)
    }
}

/// The pairs that are kept of a torn trace, and the lines of the bytes that are skipped, where the trace comes in parts of these sizes.
pub fn salvage(torn: &[u8], mut part: impl FnMut() -> usize) -> (Vec<u8>, String) {
    let (mut file, mut lines) = (Vec::new(), Vec::new());
    let mut words = [0; 5];
    let mut line = [0; 47];
    let (mut at, mut end) = (0, 0);
    loop {
        let last = end == torn.len();
        let window = &torn[at..end];
        let code = unsafe {
            lean_salvage(
                window.as_ptr(),
                window.len(),
                last.into(),
                words.as_mut_ptr(),
                words.len(),
                line.as_mut_ptr(),
                line.len(),
            )
        };
        assert_eq!(code, 0, "five words and 47 bytes are enough");
        let [skipped, kept, size] = [words[2], words[3], words[4]].map(|word| word as usize);
        lines.extend(&line[..size]);
        file.extend(&window[skipped..skipped + kept]);
        at += skipped + kept;
        if skipped + kept > 0 {
            continue;
        }
        if last {
            break;
        }
        assert!(window.len() < 256, "a window that waits is less than two records");
        end = (end + part()).min(torn.len());
    }
    assert_eq!(at, torn.len(), "all is decided at the end");
    if words[1] > 0 {
        lines.extend(format!("skip {} {}\n", words[0], words[1]).bytes());
    }
    (file, String::from_utf8(lines).expect("lines are text"))
}

/// The curve of these points, read at k/1024.
#[inline]
pub fn tick(points: &[i32], k: u32) -> Tick {
    let mut words = [0; 3];
    let code = unsafe { lean_tick(points.as_ptr(), points.len(), k, words.as_mut_ptr(), words.len()) };
    assert_eq!(code, 0, "three words are enough");
    let [number, place, reading] = words;
    Tick { number: number as u32, place: place as u32, reading }
}

/// Answers a part of a curve for the drive card; what is lent is marked beforehand.
#[inline]
pub fn card(m: u32, surface: &[i32], part: Part) -> Carded {
    let (line, first, second) = match part {
        Part::Stay(at) => (0, at, f64::NAN),
        Part::Line(from, to) => (1, from, to),
    };
    let mut numerators = [f64::INFINITY; 5];
    let mut words = [u64::MAX; 3];
    let code = unsafe {
        lean_card(
            m,
            surface.as_ptr(),
            surface.len(),
            line,
            first,
            second,
            numerators.as_mut_ptr(),
            numerators.len(),
            words.as_mut_ptr(),
            words.len(),
        )
    };
    assert_eq!(code, 0, "five numbers and three words are enough");
    let [number, place, count] = words.map(|word| word as u32);
    Carded {
        number,
        place,
        record: Record { numerators, count },
    }
}

/// Answers one patch: a triangular surface of degree `n` on a triangular domain of degree `domain`.
#[inline]
pub fn patch(
    n: u32,
    domain: u32,
    surface: &[i32],
    path: &[i32],
    exact: &mut [i64],
    points: &mut [i32],
) -> Answer {
    let mut words = [0; 3];
    let code = unsafe {
        lean_patch(
            n,
            domain,
            surface.as_ptr(),
            surface.len(),
            path.as_ptr(),
            path.len(),
            exact.as_mut_ptr(),
            exact.len(),
            points.as_mut_ptr(),
            points.len(),
            words.as_mut_ptr(),
            words.len(),
        )
    };
    assert_eq!(code, 0, "three words are enough");
    let [number, place, count] = words.map(|word: u64| word as u32);
    Answer { number, place, count }
}
