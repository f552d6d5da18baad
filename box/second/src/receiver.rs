//! The receiver (01, "The receiver"; 02, requests 3 and 5): settings, the run's state, and one step
//! for each section.

use crate::check;
use crate::datagram::unit_length;
use crate::section::Section;

/// What a receiver is set to.
#[derive(Clone, Copy, Debug, PartialEq, Eq)]
pub struct Settings {
    /// The own address as printed, MAC_address_1 first.
    pub address: [u8; 6],
    /// MAC_address_range: how many bytes are compared, from MAC_address_6 upward.
    pub range: usize,
    /// max_sections_per_datagram.
    pub limit: usize,
}

impl Settings {
    /// Whether 10 does not apply.
    pub fn are_good(&self) -> bool {
        (1..=6).contains(&self.range) && (1..=255).contains(&self.limit)
    }

    /// Whether the compared bytes of `address` are the own ones; of good settings only.
    pub fn are_addressed_by(&self, address: [u8; 6]) -> bool {
        let from = 6 - self.range;
        address[from..] == self.address[from..]
    }

    /// The first of 20 and 21 that applies to `section`, which is sound and addressed to us.
    pub fn bar(&self, section: &Section) -> Option<u8> {
        if section.payload_scrambling_control() != 0 {
            Some(20)
        } else if usize::from(section.last_section_number()) + 1 > self.limit {
            Some(21)
        } else {
            None
        }
    }
}

/// An open run, in numbers of any value.
#[derive(Clone, Copy, Debug, PartialEq, Eq)]
pub struct Run {
    /// The number that goes on with the run, e.
    pub next: usize,
    /// Its last number, L.
    pub last: usize,
    /// How many bytes of the unit are stored, f.
    pub filled: usize,
    /// LLC_SNAP_flag.
    pub llc_snap: bool,
    /// The full address of its number 0, as printed.
    pub address: [u8; 6],
}

impl Run {
    /// Whether an open state is good, by settings that are.
    pub fn is_good(&self, settings: &Settings) -> bool {
        (1..=self.last).contains(&self.next)
            && self.last <= 254
            && self.filled <= 65_535
            && self.filled <= 4_080 * self.next
            && settings.are_addressed_by(self.address)
    }
}

/// What a receiver or a sender answers.
#[derive(Clone, Copy, Debug, PartialEq, Eq)]
pub struct Answer {
    /// The paper's number.
    pub number: u8,
    /// The length of the unit that is delivered or of the sections that are sent, else 0.
    pub length: usize,
}

/// The unit's room in a buffer of that length.
pub fn room(buffer_length: usize) -> usize {
    buffer_length.min(65_535)
}

/// A receiver and its buffer.
#[derive(Clone, Debug)]
pub struct Receiver {
    /// What it is set to.
    pub settings: Settings,
    /// The open run, or idle.
    pub state: Option<Run>,
    /// Where the unit is joined.
    pub buffer: Vec<u8>,
}

impl Receiver {
    /// A fresh one.
    pub fn new(settings: Settings, buffer: Vec<u8>) -> Self {
        Self {
            settings,
            state: None,
            buffer,
        }
    }

    /// A gap notice: any state becomes idle.
    pub fn gap(&mut self) {
        self.state = None;
    }

    /// One section, of any length.
    pub fn receive(&mut self, bytes: &[u8]) -> Answer {
        let answer = self.answer(bytes);
        match answer.number {
            0 | 1 => self.store(&Section(bytes)),
            2 => {}
            _ => self.state = None,
        }
        answer
    }

    /// The first of the table's lines that applies: 25 is the last of the refusals, and asked at
    /// number L only.
    fn answer(&self, bytes: &[u8]) -> Answer {
        let without_length = |number| Answer { number, length: 0 };
        if let Some(number) = self.unreceivable(bytes) {
            return without_length(number);
        }
        let section = Section(bytes);
        let room = room(self.buffer.len());
        match self.filled_before(&section) {
            None => without_length(22),
            Some(filled) if filled + section.payload().len() > room => without_length(23),
            Some(_) if section.section_number() < section.last_section_number() => {
                without_length(1)
            }
            Some(filled) => match self.unit_length(filled, &section) {
                None => without_length(25),
                Some(length) => Answer { number: 0, length },
            },
        }
    }

    /// The first of the lines up to 21 that applies; none if the section is receivable.
    fn unreceivable(&self, bytes: &[u8]) -> Option<u8> {
        if !self.settings.are_good() {
            return Some(10);
        }
        if self.state.map_or(false, |run| !run.is_good(&self.settings)) {
            return Some(11);
        }
        let fault = check(bytes);
        if fault != 0 {
            return Some(fault);
        }
        let section = Section(bytes);
        if !self.settings.are_addressed_by(section.mac_address()) {
            return Some(2);
        }
        self.settings.bar(&section)
    }

    /// The length of the unit that ends with this section, which need not be stored yet: the bytes
    /// before it are what the buffer holds, whoever wrote them (READINGS A32).
    fn unit_length(&self, filled: usize, section: &Section) -> Option<usize> {
        let joined = [&self.buffer[..filled], section.payload()].concat();
        unit_length(section.llc_snap_flag() == 1, &joined)
    }

    /// Where the payload belongs: at 0 for number 0, after what is stored for the right
    /// continuation.
    fn filled_before(&self, section: &Section) -> Option<usize> {
        if section.section_number() == 0 {
            return Some(0);
        }
        let run = self.state?;
        let goes_on = usize::from(section.section_number()) == run.next
            && usize::from(section.last_section_number()) == run.last
            && (section.llc_snap_flag() == 1) == run.llc_snap
            && section.mac_address() == run.address;
        goes_on.then_some(run.filled)
    }

    /// Stores the payload of a section that is answered 0 or 1: all of it, stuffing too.
    fn store(&mut self, section: &Section) {
        let filled = self.filled_before(section).unwrap_or(0);
        let end = filled + section.payload().len();
        self.buffer[filled..end].copy_from_slice(section.payload());
        let number = usize::from(section.section_number());
        let last = usize::from(section.last_section_number());
        self.state = (number < last).then_some(Run {
            next: number + 1,
            last,
            filled: end,
            llc_snap: section.llc_snap_flag() == 1,
            address: section.mac_address(),
        });
    }
}

#[cfg(test)]
mod tests {
    use super::*;
    use crate::listing::SETTINGS;
    use crate::row::Event;
    use crate::telling::rows;

    #[test]
    fn each_telling_row_gets_its_answers() {
        for row in rows() {
            let mut receiver = row.receiver(0);
            let answers = row.events.iter().filter_map(|event| match event {
                Event::Section(bytes) => Some(receiver.receive(bytes)),
                Event::Gap => {
                    receiver.gap();
                    None
                }
            });
            let answers: Vec<_> = answers
                .map(|answer| (answer.number, answer.length))
                .collect();
            assert_eq!(answers, row.answers, "{}", row.source);
            let left = &receiver.buffer[..row.left.len()];
            assert_eq!(left, row.left, "{}", row.source);
        }
    }

    /// An open run of the fewest sections, with as much filled as can be.
    const GOOD: Run = Run {
        next: 1,
        last: 1,
        filled: 4_080,
        llc_snap: false,
        address: SETTINGS.address,
    };

    #[test]
    fn good_states() {
        let of = |next, last, filled| Run {
            next,
            last,
            filled,
            ..GOOD
        };
        for good in [GOOD, of(254, 254, 65_535)] {
            assert!(good.is_good(&SETTINGS), "{good:?}");
        }
        for bad in [
            of(0, 1, 4_080),
            of(2, 1, 4_080),
            of(1, 255, 4_080),
            of(1, 1, 4_081),
            of(17, 17, 65_536),
            of(usize::MAX, usize::MAX, 4_080),
        ] {
            assert!(!bad.is_good(&SETTINGS), "{bad:?}");
        }
    }

    #[test]
    fn a_kept_address_is_ours_where_compared() {
        for range in 1..=6 {
            let settings = Settings { range, ..SETTINGS };
            for place in 0..6 {
                let mut kept = GOOD;
                kept.address[place] ^= 1;
                let is_compared = place >= 6 - range;
                assert_eq!(kept.is_good(&settings), !is_compared, "{place} of {range}");
            }
        }
    }
}
