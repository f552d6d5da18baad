//! The IP/MAC Notification Table (INT) of EN 301 192, action 0x01: where a device finds its stream.

use crate::ffi;

refusals! {
    /// Why an INT section is refused: the first that applies.
    Refusal {
        TooShort = 12, "fewer than 18 bytes";
        TableId = 13, "table_id not 0x4C";
        SectionLength = 14, "section_length over 4,093, or not the slice's length minus 3";
        Indicator = 15, "section_syntax_indicator not 1";
        Crc32 = 16, "CRC_32 wrong";
        CurrentNextIndicator = 17, "current_next_indicator 0";
        SectionNumber = 18, "section_number above last_section_number";
        ActionType = 30, "action_type not 0x01";
        PlatformIdHash = 31, "platform_id_hash not the XOR of the three platform_id bytes";
        Loops = 32, "loops or descriptors do not fill exactly";
        DescriptorLength = 33, "a known descriptor has another length";
    }
}

/// The nine bytes of an IP/MAC_stream_location_descriptor, where they stand in the section.
#[derive(Clone, Copy, Debug, PartialEq, Eq, Hash)]
pub struct Location<'a>(&'a [u8]);

impl<'a> Location<'a> {
    /// The nine bytes themselves.
    #[must_use]
    pub fn bytes(self) -> &'a [u8] {
        self.0
    }

    /// network_id.
    #[must_use]
    pub fn network_id(self) -> u16 {
        self.u16_at(0)
    }

    /// original_network_id.
    #[must_use]
    pub fn original_network_id(self) -> u16 {
        self.u16_at(2)
    }

    /// transport_stream_id.
    #[must_use]
    pub fn transport_stream_id(self) -> u16 {
        self.u16_at(4)
    }

    /// service_id.
    #[must_use]
    pub fn service_id(self) -> u16 {
        self.u16_at(6)
    }

    /// component_tag.
    #[must_use]
    pub fn component_tag(self) -> u8 {
        self.0[8]
    }

    fn u16_at(self, offset: usize) -> u16 {
        u16::from_be_bytes([self.0[offset], self.0[offset + 1]])
    }
}

/// Where the stream for `device` is, its address as printed: the location of the first pair of
/// loops that covers the device and has one; none if there is no such pair.
///
/// The slice has to be the whole section and nothing else, from table_id to CRC_32.
///
/// ```
/// use fossknut::notification::{read, Refusal};
///
/// let mut section = vec![
///     0x4C, 0xF0, 0x1E, 0x01, 0x07, 0xC1, 0, 0, 1, 2, 4, 0, // platform_id 01 02 04
///     0xF0, 0, // nothing in the platform loop
///     0xF0, 0, // for every device:
///     0xF0, 11, 0x13, 9, 0, 1, 0, 2, 0, 3, 0, 4, 5,
/// ];
/// let crc_32 = fossknut::crc_32(&section);
/// section.extend(crc_32.to_be_bytes());
///
/// let location = read([0x02, 0x00, 0x5E, 0x10, 0x20, 0x30], &section)?.expect("a location");
/// assert_eq!(location.transport_stream_id(), 3);
/// assert_eq!(location.bytes(), &section[20..29]);
///
/// assert_eq!(read([0; 6], &section[..17]), Err(Refusal::TooShort));
/// # Ok::<(), Refusal>(())
/// ```
///
/// # Errors
///
/// The first [`Refusal`] that applies.
///
/// # Panics
///
/// If the library answers a number that this crate does not know, which means that the two are of
/// different versions.
pub fn read(device: [u8; 6], section: &[u8]) -> Result<Option<Location<'_>>, Refusal> {
    match ffi::notification(device, section) {
        (3, offset) => Ok(Some(Location(&section[offset..offset + 9]))),
        (4, _) => Ok(None),
        (number, _) => Err(Refusal::answered(number)),
    }
}
