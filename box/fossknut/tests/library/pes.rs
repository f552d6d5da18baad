//! The PES data packet reader.

use crate::{ffi, numbers, Library};
use fossknut::pes;
use second::random::Random;
use second::tally::Tally;
use second::telling;

impl Library {
    /// The library's number, on which, as on what is read, the second program and the wrapper
    /// agree.
    fn pes(&mut self, packet: &[u8]) -> u8 {
        let (number, read) = self.call(packet, ffi::pes);
        let second = second::pes::read(packet);
        assert_eq!((number, read), numbers::pes(&second), "{packet:02X?}");
        let wrapped = pes::read(packet).map_err(pes::Refusal::number);
        let second = second.map(|second| pes::Packet {
            extension: second.extension,
            rate: second.rate,
            data: &packet[second.data],
        });
        assert_eq!(wrapped, second, "{packet:02X?}");
        number
    }
}

#[test]
fn telling_inputs() {
    let mut library = Library::new();
    for telling in telling::packets() {
        let number = library.pes(&telling.bytes);
        assert_eq!(
            number,
            numbers::pes(&telling.answer).0,
            "{}",
            telling.source
        );
    }
}

/// Every third byte, at every length around its header, for both identifiers and their neighbours.
#[test]
fn every_header_at_every_length() {
    let mut library = Library::new();
    let mut random = Random::new(1);
    let mut tally = Tally::default();
    for identifier in [0x20, 0x21, 0x22, 0x23, 0xA1, 0x00] {
        for flags_and_length in 0..=0xFF {
            for length in 0..=20 {
                let mut packet = random.bytes(length);
                let header = [identifier, random.byte(), flags_and_length];
                let start = length.min(3);
                packet[..start].copy_from_slice(&header[..start]);
                tally.count(library.pes(&packet));
            }
        }
    }
    tally.assert_all([5, 40, 41, 42, 43], 500);
}

#[test]
fn every_identifier() {
    let mut library = Library::new();
    for identifier in 0..=0xFF {
        let number = library.pes(&[identifier, 0, 0x82, 0, 0]);
        let known = identifier == 0x21 || identifier == 0x22;
        assert_eq!(number, if known { 5 } else { 41 }, "{identifier:#04X}");
    }
}

/// All extensions, and each bit of the rate, with the reserved bits before them set and not.
#[test]
fn every_bit_of_the_fields() {
    let mut library = Library::new();
    for extension in 0..=0xFFFF_u16 {
        let [high, low] = extension.to_be_bytes();
        assert_eq!(library.pes(&[0x21, 0, 0x82, high, low]), 5);
    }
    for bit in 0..48 {
        for field in [1_u64 << bit, !(1 << bit)] {
            let [_, _, fields @ ..] = field.to_be_bytes();
            let packet = [&[0x21, 0, 0xC6][..], &fields, b"data"].concat();
            assert_eq!(library.pes(&packet), 5);
        }
    }
}

#[test]
fn the_longest_packets() {
    let mut library = Library::new();
    let mut random = Random::new(2);
    for length in [65_533, 65_534, 65_535, 65_536, 65_537, 131_072 + 3] {
        let mut packet = random.bytes(length);
        packet[..3].copy_from_slice(&[0x21, 0, 0xC7]);
        let expected = if length > 65_535 { 40 } else { 5 };
        assert_eq!(library.pes(&packet), expected, "{length} bytes");
    }
}

#[test]
fn random_packets() {
    let mut library = Library::new();
    let mut random = Random::new(3);
    for _ in 0..20_000 {
        let length = random.below(40);
        let mut packet = random.bytes(length);
        if let Some(identifier) = packet.first_mut() {
            *identifier = random.pick(&[0x21, 0x21, 0x22, *identifier]);
        }
        library.pes(&packet);
    }
}
