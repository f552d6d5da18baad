//! The receiver of datagram sections.

use crate::ffi;
use crate::{Refusal, Settings};

/// Joins the payloads of sections to units (datagrams), and hands over a unit when it is whole.
///
/// It is given every section in the order of arrival, those for other addresses too, and a
/// [gap notice](Receiver::gap) where sections were lost. `B` is the memory in which payloads are
/// joined: a slice that is lent, an array, a vector. They have up to 65,535 bytes, stuffing among
/// them; of a longer buffer the rest is never touched.
///
/// Where a unit ends the [crate's page](crate#units) says. All of the payloads are written to the
/// buffer and stay there; handed over is the unit alone, without the stuffing after it. The last
/// section decides by the IP header, of which earlier ones may have left a part in the buffer. So the
/// answer depends on what the buffer holds: while a unit is open nobody else may write there, and `B`
/// has to give the same bytes at each call.
///
/// A unit belongs to one full address. Where the [range](Settings::range) is below 6, the sections of
/// sisters are taken too, addresses that are the own where compared: number 0 of any of them starts a
/// unit and forgets the open one, and another number is refused if its address is not the open
/// unit's.
///
/// ```
/// use fossknut::{Answer, Receiver, Refusal, Settings};
///
/// /// An IPv4 datagram: bytes 2 and 3 say that it has 28.
/// const DATAGRAM: &[u8] = b"\x45\x00\x00\x1C\x00\x00\x00\x00\x40\xFD\xF5\xE1\
///                           \xC0\x00\x02\x01\xC0\x00\x02\x02Fossknut";
///
/// /// A section for 02:00:5E:10:20:30, one of two.
/// fn section(number: u8, payload: &[u8]) -> Vec<u8> {
///     let length = 13 + payload.len() as u8;
///     let mut section = vec![0x3E, 0xB0, length, 0x30, 0x20, 0xC1, number, 1, 0x10, 0x5E, 0, 2];
///     section.extend(payload);
///     let crc_32 = fossknut::crc_32(&section);
///     section.extend(crc_32.to_be_bytes());
///     section
/// }
///
/// let address = [0x02, 0x00, 0x5E, 0x10, 0x20, 0x30];
/// let settings = Settings { address, range: 6, limit: 16 };
/// let mut receiver = Receiver::new(settings, [0; 65_535]);
///
/// let (first, rest) = DATAGRAM.split_at(3);
/// assert_eq!(receiver.receive(&section(0, first)), Answer::Stored);
/// assert_eq!(receiver.receive(&section(1, rest)), Answer::Delivered(DATAGRAM));
///
/// // With stuffing after it, the same is handed over.
/// let stuffed = [rest, &[0xFF; 9]].concat();
/// assert_eq!(receiver.receive(&section(0, first)), Answer::Stored);
/// assert_eq!(receiver.receive(&section(1, &stuffed)), Answer::Delivered(DATAGRAM));
///
/// // One byte fewer than it says that it has.
/// let cut = &rest[..rest.len() - 1];
/// assert_eq!(receiver.receive(&section(0, first)), Answer::Stored);
/// assert_eq!(receiver.receive(&section(1, cut)), Answer::Refused(Refusal::IpHeader));
///
/// // Sections may have been lost between the two.
/// assert_eq!(receiver.receive(&section(0, first)), Answer::Stored);
/// receiver.gap();
/// assert_eq!(receiver.receive(&section(1, rest)), Answer::Refused(Refusal::Continuation));
/// ```
#[derive(Clone, Debug)]
pub struct Receiver<B> {
    settings: Settings,
    state: ffi::State,
    buffer: B,
}

/// What a [`Receiver`] answers to a section.
#[derive(Clone, Copy, Debug, PartialEq, Eq, Hash)]
#[must_use]
pub enum Answer<'a> {
    /// 0: the section was the last of a unit, which is here: whole, and nothing after it.
    Delivered(&'a [u8]),
    /// 1: the section's payload is stored, and more of the unit has to come.
    Stored,
    /// 2: the section is for another address, and nothing has changed.
    PassedBy,
    /// The section is refused, nothing of it is stored, and what was stored of an open unit is
    /// forgotten.
    Refused(Refusal),
}

impl Answer<'_> {
    /// The number that the papers give the answer.
    #[must_use]
    pub fn number(self) -> u8 {
        match self {
            Answer::Delivered(_) => 0,
            Answer::Stored => 1,
            Answer::PassedBy => 2,
            Answer::Refused(refusal) => refusal.number(),
        }
    }
}

impl<B: AsMut<[u8]>> Receiver<B> {
    /// A receiver with nothing stored.
    pub fn new(settings: Settings, buffer: B) -> Self {
        Self {
            settings,
            state: ffi::State::default(),
            buffer,
        }
    }

    /// Takes one section: the whole of it and nothing else, from table_id to CRC_32.
    ///
    /// # Panics
    ///
    /// If the library answers a number that this crate does not know, which means that the two are
    /// of different versions.
    pub fn receive(&mut self, section: &[u8]) -> Answer<'_> {
        let buffer = self.buffer.as_mut();
        let (number, length) = ffi::receive(&self.settings, &mut self.state, section, buffer);
        match number {
            0 => Answer::Delivered(&buffer[..length]),
            1 => Answer::Stored,
            2 => Answer::PassedBy,
            _ => Answer::Refused(Refusal::answered(number)),
        }
    }

    /// Takes the notice that sections may have been lost here: what was stored of an open unit is
    /// forgotten.
    pub fn gap(&mut self) {
        ffi::gap(&mut self.state);
    }

    /// What the receiver was set to.
    pub fn settings(&self) -> &Settings {
        &self.settings
    }

    /// The buffer, with the bytes that the last payloads have left in it.
    pub fn into_buffer(self) -> B {
        self.buffer
    }
}
