//! How often each answer was given, and which units were delivered.

use crate::receiver::{Answer, Run};
use crate::section::Section;

/// How often each number was the answer.
pub struct Tally([usize; 256]);

impl Default for Tally {
    fn default() -> Self {
        Self([0; 256])
    }
}

impl Tally {
    /// One more answer.
    pub fn count(&mut self, number: u8) {
        self.0[usize::from(number)] += 1;
    }

    /// All that `other` has counted, too.
    pub fn add(&mut self, other: &Tally) {
        for (times, more) in self.0.iter_mut().zip(other.0) {
            *times += more;
        }
    }

    /// The numbers that were answered, and how often.
    pub fn answered(&self) -> impl Iterator<Item = (u8, usize)> + '_ {
        (0..=0xFF).zip(self.0).filter(|&(_, times)| times > 0)
    }

    /// How often this number was answered.
    pub fn times(&self, number: u8) -> usize {
        self.0[usize::from(number)]
    }

    /// Each of `numbers` was answered so often, or more often.
    ///
    /// # Panics
    ///
    /// If one was not.
    pub fn assert_all(&self, numbers: impl IntoIterator<Item = u8>, times: usize) {
        for number in numbers {
            let given = self.times(number);
            assert!(given >= times, "{number} was answered {given} times");
        }
    }
}

/// How many units were delivered, by how they end.
#[derive(Debug, Default)]
pub struct Delivered {
    /// With LLC/SNAP: all of the joined payloads.
    pub flagged: usize,
    /// Without: a datagram that is all of them.
    pub exact: usize,
    /// Without: a datagram and stuffing after it.
    pub stuffed: usize,
}

impl Delivered {
    /// One more answer, to a section that a receiver was given in this state.
    pub fn count(&mut self, before: Option<Run>, bytes: &[u8], answer: Answer) {
        if answer.number != 0 {
            return;
        }
        let section = Section(bytes);
        let filled = match section.section_number() {
            0 => 0,
            _ => before.map_or(0, |run| run.filled),
        };
        let joined_length = filled + section.payload().len();
        let kind = match section.llc_snap_flag() {
            1 => &mut self.flagged,
            _ if answer.length == joined_length => &mut self.exact,
            _ => &mut self.stuffed,
        };
        *kind += 1;
    }

    /// There are so many of each kind, or more.
    ///
    /// # Panics
    ///
    /// If there are not.
    pub fn assert_each(&self, times: usize) {
        let fewest = self.flagged.min(self.exact).min(self.stuffed);
        assert!(fewest >= times, "{self:?}");
    }
}
