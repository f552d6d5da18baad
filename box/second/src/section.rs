//! The datagram section (EN 301 192, multiprotocol encapsulation; 01, "The datagram section").

use crate::tables::slicing_by_16 as crc_32;

/// table_id of a datagram section.
pub const TABLE_ID: u8 = 0x3E;
/// Bytes up to and with section_length, which counts those that follow.
pub const BEFORE_LENGTH: usize = 3;
/// Bytes before the payload.
pub const HEADER: usize = 12;
/// Bytes of CRC_32, at the end.
pub const CRC_32: usize = 4;
/// The fewest bytes that a section has: header, no payload, CRC_32.
pub const SHORTEST: usize = HEADER + CRC_32;
/// The most bytes that a section has.
pub const LONGEST: usize = 4_096;

/// The fields of a section of [`SHORTEST`] bytes or more, as its bytes have them.
pub struct Section<'a>(pub &'a [u8]);

impl Section<'_> {
    /// Byte 0.
    pub fn table_id(&self) -> u8 {
        self.0[0]
    }

    /// Byte 1, bit 7.
    pub fn section_syntax_indicator(&self) -> u8 {
        self.0[1] >> 7
    }

    /// Byte 1, bit 6.
    pub fn private_indicator(&self) -> u8 {
        (self.0[1] >> 6) & 1
    }

    /// Byte 1, bits 3 to 0, and byte 2.
    pub fn section_length(&self) -> usize {
        (usize::from(self.0[1] & 0x0F) << 8) | usize::from(self.0[2])
    }

    /// The address as printed, MAC_address_1 first: bytes 11 to 8, then 4 and 3.
    pub fn mac_address(&self) -> [u8; 6] {
        [11, 10, 9, 8, 4, 3].map(|place: usize| self.0[place])
    }

    /// Byte 5, bits 5 to 4.
    pub fn payload_scrambling_control(&self) -> u8 {
        (self.0[5] >> 4) & 3
    }

    /// Byte 5, bits 3 to 2.
    pub fn address_scrambling_control(&self) -> u8 {
        (self.0[5] >> 2) & 3
    }

    /// Byte 5, bit 1.
    pub fn llc_snap_flag(&self) -> u8 {
        (self.0[5] >> 1) & 1
    }

    /// Byte 5, bit 0.
    pub fn current_next_indicator(&self) -> u8 {
        self.0[5] & 1
    }

    /// Byte 6.
    pub fn section_number(&self) -> u8 {
        self.0[6]
    }

    /// Byte 7.
    pub fn last_section_number(&self) -> u8 {
        self.0[7]
    }

    /// What stands between the header and CRC_32.
    pub fn payload(&self) -> &[u8] {
        &self.0[HEADER..self.0.len() - CRC_32]
    }

    /// The last four bytes, high byte first.
    pub fn crc_32(&self) -> u32 {
        let field = &self.0[self.0.len() - CRC_32..];
        u32::from_be_bytes([field[0], field[1], field[2], field[3]])
    }

    /// What CRC_32 is taken over: all bytes before the field.
    pub fn before_crc_32(&self) -> &[u8] {
        &self.0[..self.0.len() - CRC_32]
    }
}

/// The first of the checks 12 to 19 and 24 that applies to `bytes`, else 0 (01, "The receiver").
///
/// 24 is for the checksum form of ISO/IEC 13818-6, and stands at 15's place (02, request 2): such a
/// section has a checksum where others have CRC_32, and nobody looks at it.
pub fn check(bytes: &[u8]) -> u8 {
    if bytes.len() < 16 {
        return 12;
    }
    let section = Section(bytes);
    if section.table_id() != 0x3E {
        13
    } else if section.section_length() > 4_093 || section.section_length() != bytes.len() - 3 {
        14
    } else if section.section_syntax_indicator() == 0 && section.private_indicator() == 1 {
        24
    } else if section.section_syntax_indicator() == section.private_indicator() {
        15
    } else if section.crc_32() != crc_32(section.before_crc_32()) {
        16
    } else if section.current_next_indicator() == 0 {
        17
    } else if section.section_number() > section.last_section_number() {
        18
    } else if section.address_scrambling_control() != 0 {
        19
    } else {
        0
    }
}

#[cfg(test)]
mod tests {
    use super::Section;

    #[test]
    fn each_field_is_read_from_its_place() {
        let header = b"\x3E\x7A\xBC\x06\x05\x9A\x11\x22\x04\x03\x02\x01";
        let bytes = [&header[..], b"payload", b"\xC3\xC2\xC1\xC0"].concat();
        let section = Section(&bytes);
        assert_eq!(section.table_id(), 0x3E);
        assert_eq!(section.section_syntax_indicator(), 0);
        assert_eq!(section.private_indicator(), 1);
        assert_eq!(section.section_length(), 0xABC);
        assert_eq!(section.mac_address(), [1, 2, 3, 4, 5, 6]);
        assert_eq!(section.payload_scrambling_control(), 1);
        assert_eq!(section.address_scrambling_control(), 2);
        assert_eq!(section.llc_snap_flag(), 1);
        assert_eq!(section.current_next_indicator(), 0);
        assert_eq!(section.section_number(), 0x11);
        assert_eq!(section.last_section_number(), 0x22);
        assert_eq!(section.payload(), b"payload");
        assert_eq!(section.crc_32(), 0xC3C2_C1C0);
    }
}
