//! PES data packets.

use crate::pes::Packet as Read;

/// A packet, and what is read from it.
pub struct Packet {
    /// Where in the papers it comes from.
    pub source: &'static str,
    /// The packet.
    pub bytes: Vec<u8>,
    /// What is read, or the number of the refusal.
    pub answer: Result<Read, u8>,
}

/// All of them.
pub fn packets() -> Vec<Packet> {
    let rows = samples_of_01().into_iter().chain(of_readings());
    rows.map(|(source, bytes, answer)| Packet {
        source,
        bytes,
        answer,
    })
    .collect()
}

type Row = (&'static str, Vec<u8>, Result<Read, u8>);

fn read(
    extension: Option<u16>,
    rate: Option<u32>,
    data: std::ops::Range<usize>,
) -> Result<Read, u8> {
    Ok(Read {
        extension,
        rate,
        data,
    })
}

/// These bytes, and zeros after them up to that length.
fn padded(start: &[u8], length: usize) -> Vec<u8> {
    let mut packet = start.to_vec();
    packet.resize(length, 0);
    packet
}

#[rustfmt::skip] // one row per line
fn samples_of_01() -> Vec<Row> {
    let synchronous = b"\x21\x05\xF6\xFF\x2B\xF0\x1F\x40\x00\xAA\xBB".to_vec();
    vec![
        ("01: extension 299, rate 2,048,000, data AA BB", synchronous, read(Some(299), Some(2_048_000), 9..11)),
        ("01: 22 00 30: no data", b"\x22\x00\x30".to_vec(), read(None, None, 3..3)),
        ("01: 22 00 31", b"\x22\x00\x31".to_vec(), Err(43)),
    ]
}

#[rustfmt::skip] // one row per line
fn of_readings() -> Vec<Row> {
    vec![
        ("A29: 21 00 4F", b"\x21\x00\x4F".to_vec(), Err(42)),
        ("A29: 21 00 C5 and 9 bytes", padded(b"\x21\x00\xC5", 12), Err(43)),
        ("A29: 21 00 C6 and 9 bytes", padded(b"\x21\x00\xC6", 12), read(Some(0), Some(0), 9..12)),
        ("A29: 0x22 with an extension", b"\x22\xFF\xB2\xFF\xFF".to_vec(), read(Some(0x1FF), None, 5..5)),
        ("A29: 0x22 with a rate", padded(b"\x22\x00\x44", 12), Err(42)),
        ("A29: private bytes", padded(b"\x22\x00\x05", 9), read(None, None, 8..9)),
        ("A29: 41 before 42", b"\x23\x00\x4F".to_vec(), Err(41)),
        ("A30: 2 bytes", b"\x22\x00".to_vec(), Err(40)),
        ("A30: 65,535 bytes", padded(b"\x22\x00\x00", 65_535), read(None, None, 3..65_535)),
        ("A30: 65,536 bytes", padded(b"\x22\x00\x00", 65_536), Err(40)),
        ("A30: 40 before 41", padded(b"\x00\x00\x00", 65_536), Err(40)),
    ]
}
