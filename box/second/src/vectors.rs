//! CRC_32 values that others have published, and the samples of 01 that are run rather than proved.
//!
//! The sources are not among the papers: the values are quoted from memory, and that they come out
//! right bit by bit is the evidence that they were remembered right.

use std::fmt::Write;

use crate::crc_32;
use crate::generator::datagrams::bare_ipv4;
use crate::listing::SETTINGS;
use crate::recording::offers;
use crate::sender::send;

/// Bytes and their CRC_32.
pub struct Vector {
    /// What the line of the program calls it.
    pub name: &'static str,
    /// Where the value is published.
    pub source: &'static str,
    /// What it is taken over.
    pub bytes: &'static [u8],
    /// The published value.
    pub crc_32: u32,
}

/// The same polynomial, start and order as CRC_32, but inverted at the end, as ITU-T I.363.5 has it
/// for AAL5.
const fn of_aal5(crc: u32) -> u32 {
    !crc
}

/// Published values of CRC_32.
pub const CRC_32: &[Vector] = &[
    Vector {
        name: "empty",
        source: "the start value: nothing has been shifted in",
        bytes: b"",
        crc_32: 0xFFFF_FFFF,
    },
    Vector {
        name: "123456789",
        source: "Cook's catalogue of parametrised CRC algorithms, CRC-32/MPEG-2, check",
        bytes: b"123456789",
        crc_32: 0x0376_E6E7,
    },
    Vector {
        name: "program-association",
        source: "the program association section that FFmpeg's mpegts muxer writes for one service",
        bytes: b"\x00\xB0\x0D\x00\x01\xC1\x00\x00\x00\x01\xF0\x00",
        crc_32: 0x2AB1_04B2,
    },
    Vector {
        name: "program-map",
        source: "its program map section for one H.264 and one AAC stream",
        bytes: b"\x02\xB0\x17\x00\x01\xC1\x00\x00\xE1\x00\xF0\x00\
            \x1B\xE1\x00\xF0\x00\x0F\xE1\x01\xF0\x00",
        crc_32: 0x2F44_B99B,
    },
    Vector {
        name: "aal5-zeros",
        source: "ITU-T I.363.5, example CPCS-PDU: 40 octets of 0",
        bytes: &aal5([0; 40]),
        crc_32: of_aal5(0x864D_7F99),
    },
    Vector {
        name: "aal5-ones",
        source: "ITU-T I.363.5, example CPCS-PDU: 40 octets of 0xFF",
        bytes: &aal5([0xFF; 40]),
        crc_32: of_aal5(0xC55E_457A),
    },
    Vector {
        name: "aal5-counting",
        source: "ITU-T I.363.5, example CPCS-PDU: 40 octets counting from 1 to 40",
        bytes: &aal5(counting()),
        crc_32: of_aal5(0xBF67_1ED0),
    },
];

/// What the program prints: for each vector `crc_32`, its name and the value in eight digits, then
/// for each unit `send`, its length, the piece size, the number of sections and their length in
/// all.
pub fn lines() -> String {
    let mut lines = String::new();
    for vector in CRC_32 {
        let value = crc_32(vector.bytes);
        writeln!(lines, "crc_32 {} {value:08X}", vector.name).expect("a String takes any text");
    }
    // Nobody could send an empty unit without LLC/SNAP.
    for (llc_snap, unit) in [(false, bare_ipv4(4_081)), (true, Vec::new())] {
        let (length, piece_size) = (unit.len(), 4_080);
        let mut output = vec![0; 5_000];
        let answer = send(&SETTINGS, llc_snap, Some(piece_size), &unit, &mut output);
        let sections = offers(&output[..answer.length]).count();
        let total = answer.length;
        writeln!(lines, "send {length} {piece_size} {sections} {total}")
            .expect("a String takes any text");
    }
    lines
}

/// An AAL5 CPCS-PDU up to its CRC: the payload, CPCS-UU 0, CPI 0 and the payload's length in 16
/// bits.
const fn aal5(payload: [u8; 40]) -> [u8; 44] {
    let mut pdu = [0; 44];
    let mut i = 0;
    while i < payload.len() {
        pdu[i] = payload[i];
        i += 1;
    }
    pdu[43] = payload.len() as u8;
    pdu
}

const fn counting() -> [u8; 40] {
    let mut octets = [0; 40];
    let mut i = 0;
    while i < octets.len() {
        octets[i] = i as u8 + 1;
        i += 1;
    }
    octets
}

#[cfg(test)]
mod tests {
    use super::{lines, CRC_32};

    #[test]
    fn the_lines_are_what_is_published() {
        let lines = lines();
        for (line, vector) in lines.lines().zip(CRC_32) {
            assert_eq!(
                line,
                format!("crc_32 {} {:08X}", vector.name, vector.crc_32)
            );
        }
        // 01, "Samples on the bench"
        assert!(lines.ends_with("\nsend 4081 4080 2 4113\nsend 0 4080 1 16\n"));
    }
}
