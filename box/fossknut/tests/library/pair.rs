//! The library's receiver beside the second program's.

use crate::guarded::Guarded;
use crate::{ffi, numbers};
use second::receiver::Receiver;
use second::row::Event;

/// Guarded memory for a receiver: one for its buffer, one for the sections.
pub(crate) struct Memory {
    buffer: Guarded,
    section: Guarded,
}

impl Memory {
    pub(crate) fn new() -> Self {
        Self {
            buffer: Guarded::new(),
            section: Guarded::new(),
        }
    }

    /// The library's receiver and the second program's, with equal buffers.
    pub(crate) fn pair(&mut self, second: Receiver) -> Pair<'_> {
        Pair {
            settings: numbers::settings(&second.settings),
            state: numbers::state(second.state),
            buffer: self.buffer.at_end(&second.buffer),
            section: &mut self.section,
            second,
        }
    }
}

/// Two receivers that are given the same, and have to do the same.
pub(crate) struct Pair<'a> {
    settings: fossknut::Settings,
    pub(crate) state: ffi::State,
    pub(crate) buffer: &'a mut [u8],
    section: &'a mut Guarded,
    second: Receiver,
}

impl Pair<'_> {
    /// Number and length, on which both agree, as they do on state and buffer.
    pub(crate) fn receive(&mut self, bytes: &[u8]) -> (u8, usize) {
        let section = if bytes.len() % 2 == 0 {
            self.section.at_end(bytes)
        } else {
            self.section.at_start(bytes)
        };
        let answer = ffi::receive(&self.settings, &mut self.state, section, self.buffer);
        assert!(section == bytes, "the call changed its input");
        let expected = self.second.receive(bytes);
        assert_eq!(answer, (expected.number, expected.length), "{bytes:02X?}");
        self.assert_equal();
        answer
    }

    fn gap(&mut self) {
        ffi::gap(&mut self.state);
        self.second.gap();
        self.assert_equal();
    }

    fn assert_equal(&self) {
        assert_eq!(self.state, numbers::state(self.second.state));
        assert!(self.buffer == self.second.buffer, "the buffers differ");
    }

    /// The answers to all sections of a row; a gap notice gets none.
    pub(crate) fn row(&mut self, events: &[Event]) -> Vec<(u8, usize)> {
        let mut answers = Vec::new();
        for event in events {
            match event {
                Event::Section(bytes) => answers.push(self.receive(bytes)),
                Event::Gap => self.gap(),
            }
        }
        answers
    }
}
