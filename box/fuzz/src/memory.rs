//! Where the slices and buffers stand that are lent to the library.

use std::fmt::Debug;

use second::random::Random;

use crate::guarded::Guarded;

/// At how many places, and so alignments, they may begin.
const PLACES: usize = 32;
/// How many bytes on either side of a buffer are watched, at least.
const MARGIN: usize = 64;
/// What stands there.
static OTHERS: &[u8; MARGIN + PLACES] =
    b"Bytes on either side of a buffer that is lent to the library have to stay as they are, all 96...";

/// Memory for the slices that are only read, and the place of a case.
pub struct Memory {
    guarded: Guarded,
    /// Without one a slice stands at the guarded end.
    place: Option<usize>,
}

impl Memory {
    pub fn new() -> Self {
        let guarded = Guarded::new();
        Self {
            guarded,
            place: None,
        }
    }

    pub fn place_anew(&mut self, random: &mut Random) {
        self.place = (!random.one_in(3)).then(|| random.below(PLACES));
    }

    /// What `call` gives for a copy of `bytes`, which it has to leave as it is.
    pub fn call<T>(&mut self, bytes: &[u8], call: impl FnOnce(&[u8]) -> T) -> T {
        let lent = match self.place {
            Some(place) => self.guarded.at(place, bytes),
            None => self.guarded.at_end(bytes),
        };
        let answer = call(lent);
        assert!(lent == bytes, "the call changed its input");
        answer
    }

    /// A buffer with these bytes.
    pub fn buffer(&self, bytes: &[u8]) -> Buffer {
        let before = MARGIN + self.place.unwrap_or(0);
        let area = framed(before, bytes);
        Buffer { area, before }
    }
}

fn framed(before: usize, bytes: &[u8]) -> Vec<u8> {
    [&OTHERS[..before], bytes, &OTHERS[..MARGIN]].concat()
}

/// A buffer in the midst of bytes that are not lent.
pub struct Buffer {
    area: Vec<u8>,
    before: usize,
}

impl Buffer {
    pub fn lend(&mut self) -> &mut [u8] {
        let end = self.area.len() - MARGIN;
        &mut self.area[self.before..end]
    }

    /// All of it is as in the second program, and the bytes on either side are as they were.
    pub fn expect(&self, second: &[u8]) {
        let expected = framed(self.before, second);
        if self.area != expected {
            let mut pairs = self.area.iter().zip(&expected);
            let first = pairs.position(|(one, other)| one != other).unwrap_or(0);
            let place = first as isize - self.before as isize;
            let what = format!("buffer of {} from byte {place} on", second.len());
            same(&what, &self.area[first..], &expected[first..]);
        }
    }
}

/// Both programs have given the same.
#[track_caller]
pub fn same<T: PartialEq + Debug>(what: &str, library: T, second: T) {
    assert!(
        library == second,
        "{what}: the library gave {library:02X?}, the second program {second:02X?}"
    );
}
