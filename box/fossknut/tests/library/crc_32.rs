//! CRC_32.

use crate::Library;
use second::random::Random;
use second::vectors::CRC_32;

#[test]
fn published_vectors() {
    let mut library = Library::new();
    for vector in CRC_32 {
        assert_eq!(
            library.crc_32(vector.bytes),
            vector.crc_32,
            "{}",
            vector.source
        );
    }
}

#[test]
fn over_bytes_and_their_crc_32_it_is_zero() {
    let mut library = Library::new();
    for vector in CRC_32 {
        let mut bytes = vector.bytes.to_vec();
        bytes.extend(library.crc_32(vector.bytes).to_be_bytes());
        assert_eq!(library.crc_32(&bytes), 0, "{}", vector.source);
    }
}

#[test]
fn every_length_at_every_alignment() {
    let mut library = Library::new();
    let mut random = Random::new(1);
    for length in 0..=4_200 {
        let bytes = random.bytes(length);
        let expected = second::crc_32(&bytes);
        assert_eq!(library.crc_32(&bytes), expected, "{length} bytes");
        // A vector's memory is aligned to 8 or more.
        let mut shifted = bytes.clone();
        for offset in 1..=8 {
            shifted.insert(0, random.byte());
            let crc_32 = fossknut::crc_32(&shifted[offset..]);
            assert_eq!(crc_32, expected, "{length} bytes at {offset}");
        }
    }
}

#[test]
fn long_inputs() {
    let mut library = Library::new();
    let mut random = Random::new(3);
    for length in [8_191, 65_535, 65_536, 65_537, 200_003] {
        let bytes = random.bytes(length);
        assert_eq!(
            library.crc_32(&bytes),
            second::crc_32(&bytes),
            "{length} bytes"
        );
    }
}

#[test]
fn no_bytes_at_no_address() {
    // An empty slice in Rust may point to nowhere.
    assert_eq!(fossknut::crc_32(&[]), 0xFFFF_FFFF);
}

#[test]
fn every_value_of_each_byte() {
    let mut library = Library::new();
    let mut bytes = Random::new(2).bytes(67);
    for offset in 0..bytes.len() {
        let before = bytes[offset];
        for value in 0..=0xFF {
            bytes[offset] = value;
            let expected = second::crc_32(&bytes);
            assert_eq!(library.crc_32(&bytes), expected, "{value:#04X} at {offset}");
        }
        bytes[offset] = before;
    }
}
