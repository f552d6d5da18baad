//! The static library beside the second program, through the wrapper that the box builder uses.

mod check;
mod crc_32;
// The very file of the wrapper: what it keeps for itself, the tests call with any numbers.
#[allow(dead_code)]
#[path = "../../src/ffi.rs"]
mod ffi;
mod guarded;
mod notification;
mod numbers;
mod pair;
mod pes;
mod receiver;
mod refusal;
mod sender;
mod unit_end;

use fossknut::{Refusal, Settings};
use guarded::Guarded;

/// The library, called only on slices whose ends are guarded, and held to leave them as they were.
struct Library {
    memory: Guarded,
}

impl Library {
    fn new() -> Self {
        Self {
            memory: Guarded::new(),
        }
    }

    fn crc_32(&mut self, bytes: &[u8]) -> u32 {
        self.call(bytes, fossknut::crc_32)
    }

    /// The number that the papers give the answer.
    fn check(&mut self, section: &[u8]) -> u8 {
        self.call(section, |section| {
            fossknut::check(section).map_or_else(Refusal::number, |()| 0)
        })
    }

    fn call<T: PartialEq + std::fmt::Debug>(&mut self, bytes: &[u8], f: impl Fn(&[u8]) -> T) -> T {
        let at_end = self.memory.at_end(bytes);
        let answer = f(at_end);
        assert!(at_end == bytes, "the call changed its input");
        let at_start = self.memory.at_start(bytes);
        assert_eq!(f(at_start), answer, "the answer depends on the place");
        assert!(at_start == bytes, "the call changed its input");
        answer
    }
}
