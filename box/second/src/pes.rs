//! The PES data packet (EN 301 192 table 1; 01, "The PES data packet").

use std::ops::Range;

/// What is read from a packet.
#[derive(Clone, Debug, PartialEq, Eq)]
pub struct Packet {
    /// PTS_extension, if it is flagged.
    pub extension: Option<u16>,
    /// output_data_rate, if it is flagged.
    pub rate: Option<u32>,
    /// Where the data part stands in the packet.
    pub data: Range<usize>,
}

/// Reads a packet.
///
/// # Errors
///
/// The first of 40 to 43 that applies.
pub fn read(packet: &[u8]) -> Result<Packet, u8> {
    if packet.len() < 3 || packet.len() > 65_535 {
        return Err(40);
    }
    let identifier = packet[0];
    let has_extension = packet[2] & 0x80 != 0;
    let has_rate = packet[2] & 0x40 != 0;
    let header_length = usize::from(packet[2] & 0x0F);
    if identifier != 0x21 && identifier != 0x22 {
        return Err(41);
    }
    if (identifier == 0x21 && !has_extension) || (identifier == 0x22 && has_rate) {
        return Err(42);
    }
    let mut flagged = 3;
    let extension = has_extension.then(|| field(packet, &mut flagged, 2));
    let rate = has_rate.then(|| field(packet, &mut flagged, 4));
    let start = 3 + header_length;
    if start < flagged || start > packet.len() {
        return Err(43);
    }
    Ok(Packet {
        extension: extension.map(|field| (field & 0x1FF) as u16),
        rate: rate.map(|field| field & 0x0FFF_FFFF),
        data: start..packet.len(),
    })
}

/// The bytes of a field as a number, high byte first; what is not there counts as 0, since 43 is
/// still to come.
fn field(packet: &[u8], offset: &mut usize, length: usize) -> u32 {
    let bytes = (*offset..*offset + length).map(|at| packet.get(at).copied().unwrap_or(0));
    *offset += length;
    bytes.fold(0, |number, byte| number << 8 | u32::from(byte))
}

#[cfg(test)]
mod tests {
    use super::read;
    use crate::telling::packets;

    #[test]
    fn each_telling_packet_gets_its_answer() {
        for packet in packets() {
            assert_eq!(read(&packet.bytes), packet.answer, "{}", packet.source);
        }
    }
}
