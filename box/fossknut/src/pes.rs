//! The PES data packet of EN 301 192, synchronous or synchronized.

use crate::ffi;

refusals! {
    /// Why a packet is refused: the first that applies.
    Refusal {
        Length = 40, "fewer than 3 or more than 65,535 bytes";
        DataIdentifier = 41, "data_identifier neither 0x21 nor 0x22";
        Flags = 42, "no extension flag for 0x21, or a rate flag for 0x22";
        HeaderLength = 43, "header length H below the flagged fields, or 3 + H beyond the packet";
    }
}

/// What is read from a packet.
#[derive(Clone, Copy, Debug, PartialEq, Eq, Hash)]
pub struct Packet<'a> {
    /// PTS_extension, 9 bits, if it is flagged.
    pub extension: Option<u16>,
    /// output_data_rate, 28 bits, if it is flagged.
    pub rate: Option<u32>,
    /// The data part, where it stands in the packet.
    pub data: &'a [u8],
}

/// Reads a packet, which has to be the whole slice.
///
/// ```
/// use fossknut::pes::{read, Packet, Refusal};
///
/// let packet = [0x21, 0x05, 0xF6, 0xFF, 0x2B, 0xF0, 0x1F, 0x40, 0x00, 0xAA, 0xBB];
/// let expected = Packet {
///     extension: Some(299),
///     rate: Some(2_048_000),
///     data: &[0xAA, 0xBB],
/// };
/// assert_eq!(read(&packet), Ok(expected));
/// assert_eq!(read(&[0x22, 0x00, 0x31]), Err(Refusal::HeaderLength));
/// ```
///
/// # Errors
///
/// The first [`Refusal`] that applies.
///
/// # Panics
///
/// If the library answers a number that this crate does not know, which means that the two are of
/// different versions.
pub fn read(packet: &[u8]) -> Result<Packet<'_>, Refusal> {
    match ffi::pes(packet) {
        (5, pes) => Ok(Packet {
            extension: (pes.extended != 0).then_some(pes.extension as u16),
            rate: (pes.rated != 0).then_some(pes.rate as u32),
            data: &packet[pes.offset..pes.offset + pes.length],
        }),
        (number, _) => Err(Refusal::answered(number)),
    }
}
