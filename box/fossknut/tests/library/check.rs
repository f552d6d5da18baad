//! The check, 12 to 19 and 24.

use crate::Library;
use fossknut::Refusal;
use second::generator::{
    any_sound, faulty, in_checksum_form, seal, set_section_length, sets_of_faults, sound, CHECKS,
    OURS,
};
use second::random::Random;
use second::tally::Tally;
use second::telling;

impl Library {
    /// The library's answer, which has to be the second program's.
    fn agreed(&mut self, section: &[u8]) -> u8 {
        let answer = self.check(section);
        let expected = second::check(section);
        assert_eq!(answer, expected, "{} bytes: {section:02X?}", section.len());
        answer
    }
}

/// A sound section of that many bytes in all.
fn sound_of(random: &mut Random, length: usize) -> Vec<u8> {
    let payload = random.bytes(length - 16);
    sound(OURS, 0, 0, &payload)
}

#[test]
fn telling_inputs() {
    let mut library = Library::new();
    for telling in telling::sections() {
        assert_eq!(
            library.agreed(&telling.bytes),
            telling.number,
            "{}",
            telling.source
        );
    }
}

#[test]
fn no_bytes_at_no_address() {
    // An empty slice in Rust may point to nowhere.
    assert_eq!(fossknut::check(&[]), Err(Refusal::TooShort));
}

#[test]
fn every_length() {
    let mut library = Library::new();
    let mut random = Random::new(1);
    for length in 0..=4_200 {
        let mut section = sound_of(&mut random, length.max(16));
        section.truncate(length);
        let (as_it_is, damaged) = match length {
            0..=15 => (12, 12),
            16..=4_096 => (0, 16),
            _ => (14, 14),
        };
        assert_eq!(library.agreed(&section), as_it_is, "{length} bytes");
        if let Some(last) = section.last_mut() {
            *last ^= 1 << random.below(8);
        }
        assert_eq!(library.agreed(&section), damaged, "{length} bytes, damaged");
    }
}

#[test]
fn section_length_off_at_every_length() {
    let mut library = Library::new();
    let mut random = Random::new(7);
    for length in 16..=4_200 {
        let mut section = sound_of(&mut random, length);
        for section_length in [length - 4, length - 2, 12, 13, 4_093, 4_094, 4_095] {
            set_section_length(&mut section, section_length);
            seal(&mut section);
            library.agreed(&section);
        }
    }
}

#[test]
fn lengths_that_are_right_in_their_low_bits() {
    let mut library = Library::new();
    for above in [4_096, 8_192, 65_536, 131_072] {
        for length in [16, 17, 188, 4_096] {
            let section = sound(OURS, 0, 0, &vec![0; above + length - 16]);
            assert_eq!(library.agreed(&section), 14, "{} bytes", section.len());
        }
    }
}

#[test]
fn every_value_of_each_header_byte() {
    let mut library = Library::new();
    let mut random = Random::new(2);
    for length in [16, 61, 188, 269] {
        let section = sound_of(&mut random, length);
        for offset in 0..12 {
            for value in 0..=0xFF {
                let mut section = section.clone();
                section[offset] = value;
                library.agreed(&section);
                seal(&mut section);
                library.agreed(&section);
            }
        }
    }
}

#[test]
fn every_pair_of_section_numbers() {
    let mut library = Library::new();
    let mut section = sound(OURS, 0, 0, &[]);
    for numbers in 0..=0xFFFF_u16 {
        let [section_number, last_section_number] = numbers.to_be_bytes();
        section[6..8].copy_from_slice(&[section_number, last_section_number]);
        seal(&mut section);
        let expected = if section_number > last_section_number {
            18
        } else {
            0
        };
        assert_eq!(
            library.agreed(&section),
            expected,
            "{section_number} of {last_section_number}"
        );
    }
}

#[test]
fn every_single_damaged_bit() {
    let mut library = Library::new();
    let mut random = Random::new(3);
    for length in [16, 17, 23, 188, 1_024] {
        let mut section = sound_of(&mut random, length);
        assert_eq!(library.agreed(&section), 0);
        for bit in 0..8 * length {
            section[bit / 8] ^= 1 << (bit % 8);
            let answer = library.agreed(&section);
            assert_ne!(answer, 0, "bit {bit} of {length} bytes");
            assert!(
                bit < 24 || answer == 16,
                "bit {bit} of {length} bytes: {answer}"
            );
            section[bit / 8] ^= 1 << (bit % 8);
        }
    }
}

/// A section in the checksum form has no CRC_32: its last four bytes may be anything, also what
/// CRC_32 would be, or that with one bit wrong.
#[test]
fn any_checksum() {
    let mut library = Library::new();
    let mut random = Random::new(8);
    for length in [16, 17, 188, 4_096] {
        let section = sound_of(&mut random, length);
        let crc_32 = second::crc_32(&in_checksum_form(&section, [0; 4])[..length - 4]);
        let one_bit_wrong = (0..32).map(|bit| crc_32 ^ 1 << bit);
        let any = (0..200).map(|_| random.below(1 << 32) as u32);
        let checksums = [0, 1, u32::MAX, crc_32, !crc_32].into_iter();
        for checksum in checksums.chain(one_bit_wrong).chain(any) {
            let section = in_checksum_form(&section, checksum.to_be_bytes());
            assert_eq!(library.agreed(&section), 24, "{checksum:08X}");
        }
    }
}

#[test]
fn every_truncation() {
    let mut library = Library::new();
    let mut random = Random::new(4);
    for length in [16, 188, 4_096] {
        let section = sound_of(&mut random, length);
        for left in 0..length {
            let expected = if left < 16 { 12 } else { 14 };
            assert_eq!(
                library.agreed(&section[..left]),
                expected,
                "{left} of {length} bytes"
            );
        }
        assert_eq!(library.agreed(&section), 0);
    }
}

#[test]
fn every_set_of_faults() {
    let mut library = Library::new();
    let mut random = Random::new(5);
    for faults in sets_of_faults() {
        let first = faults.first().copied().unwrap_or(0);
        for _ in 0..100 {
            let section = faulty(&mut random, &faults);
            assert_eq!(
                library.agreed(&section),
                first,
                "{faults:?} in {section:02X?}"
            );
        }
    }
}

#[test]
fn random_sections() {
    let mut library = Library::new();
    let mut random = Random::new(6);
    let mut tally = Tally::default();
    for _ in 0..200_000 {
        let section = if random.one_in(4) {
            bits_flipped(&mut random)
        } else {
            let faults = random.some(&CHECKS, 12);
            faulty(&mut random, &faults)
        };
        tally.count(library.agreed(&section));
    }
    tally.assert_all(CHECKS.into_iter().chain([0]), 2_000);
}

/// A section with some bits of its header or of any part of it flipped, and CRC_32 often right
/// again.
fn bits_flipped(random: &mut Random) -> Vec<u8> {
    let mut section = any_sound(random);
    let end = if random.one_in(2) { 12 } else { section.len() };
    for _ in 0..random.between(1, 3) {
        section[random.below(end)] ^= 1 << random.below(8);
    }
    if !random.one_in(4) {
        seal(&mut section);
    }
    section
}
