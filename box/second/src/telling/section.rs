//! Sections for the check.

use crate::generator::datagrams::bare_ipv4;
use crate::generator::{
    in_checksum_form, seal, set_indicators, set_section_length, sound, with_byte, with_damaged_bit,
    CHECKSUM_FORM, OURS,
};
use crate::recording::LISTING_OF_01;

/// A section to check.
pub struct Section {
    /// Where in the papers it comes from.
    pub source: &'static str,
    /// The section.
    pub bytes: Vec<u8>,
    /// What the check answers: 12 to 19, 24, or 0.
    pub number: u8,
}

/// All of them.
pub fn sections() -> Vec<Section> {
    let samples = samples_of_01().into_iter();
    let rows = samples.chain(lengths()).chain(ignored_bits());
    let rows = rows.chain(indicators()).chain(checksum_form());
    rows.map(|(source, bytes, number)| Section {
        source,
        bytes,
        number,
    })
    .collect()
}

type Row = (&'static str, Vec<u8>, u8);

/// A section with a payload of that length, the bytes of which no check looks at.
fn with_payload(length: usize) -> Vec<u8> {
    sound(OURS, 0, 0, &vec![0x55; length])
}

#[rustfmt::skip] // one row per line
fn samples_of_01() -> Vec<Row> {
    let alone = |length| sound(OURS, 0, 0, &bare_ipv4(length));
    vec![
        ("01, B9: payload of 20 bytes", alone(20), 0),
        ("01: payload 4,080", alone(4_080), 0),
        ("01: 15 bytes", with_payload(0)[..15].to_vec(), 12),
        ("01: section_length 4,094 in 4,097 bytes", alone(4_081), 14),
        ("01: the listing's first line", LISTING_OF_01[..16].to_vec(), 13),
        ("01: the listing's second line", LISTING_OF_01[16..19].to_vec(), 12),
        ("01: the listing's third line", LISTING_OF_01[19..].to_vec(), 12),
    ]
}

#[rustfmt::skip] // one row per line
fn lengths() -> Vec<Row> {
    let int = |length: usize| with_byte(&with_payload(length - 16), 0, 0x4C);
    let mut section_length_5 = with_payload(0);
    set_section_length(&mut section_length_5, 5);
    seal(&mut section_length_5);
    let longest_offer = [&[0x3E, 0xBF, 0xFF][..], &[0; 4_095]].concat();
    vec![
        ("A3: 15 bytes of another table", int(16)[..15].to_vec(), 12),
        ("A3: 17 bytes, too few for an INT only", int(17), 13),
        ("A4: 16 bytes, section_length 5", section_length_5.clone(), 14),
        ("A4: 8 bytes, section_length 5", section_length_5[..8].to_vec(), 12),
        ("A18: 3E BF FF and 4,095 bytes", longest_offer.clone(), 14),
        ("A18: the same, CRC_32 right", with_byte(&longest_offer, 0, 0x3E), 14),
        ("A18: an end of 16 bytes", with_payload(4)[..16].to_vec(), 14),
    ]
}

#[rustfmt::skip] // one row per line
fn ignored_bits() -> Vec<Row> {
    let shortest = with_payload(0);
    let another = |byte_5| with_byte(&sound([2, 0, 0, 0, 0, 1], 0, 255, &[]), 5, byte_5);
    vec![
        ("A5: address scrambling 01, another's address", another(0xC5), 19),
        ("A6: payload scrambling 11, another's address, last 255", another(0xF1), 0),
        ("A19: byte 1 without reserved bits", with_byte(&shortest, 1, 0x80), 0),
        ("A19: byte 1 with one of them", with_byte(&shortest, 1, 0x90), 0),
        ("A19: byte 1 with the other", with_byte(&shortest, 1, 0xA0), 0),
        ("A19: byte 5 without reserved bits", with_byte(&shortest, 5, 0x01), 0),
        ("A19: byte 5 with one of them", with_byte(&shortest, 5, 0x41), 0),
        ("A19: byte 5 with the other", with_byte(&shortest, 5, 0x81), 0),
    ]
}

/// `section` with these bits as section_syntax_indicator and private_indicator, and CRC_32 right.
fn with_indicators(section: &[u8], indicators: u8) -> Vec<u8> {
    let mut section = section.to_vec();
    set_indicators(&mut section, indicators);
    seal(&mut section);
    section
}

#[rustfmt::skip] // one row per line
fn indicators() -> Vec<Row> {
    let bits = |indicators| with_indicators(&with_payload(4), indicators);
    vec![
        ("B1: bits 00", bits(0b00), 15),
        ("B1: bits 01", bits(0b01), 24),
        ("B1: bits 10", bits(0b10), 0),
        ("B1: bits 11", bits(0b11), 15),
        ("B1: bits 00, CRC_32 wrong", with_damaged_bit(&bits(0b00)), 15),
        ("B1: bits 01, CRC_32 wrong", with_damaged_bit(&bits(0b01)), 24),
        ("B1: bits 10, CRC_32 wrong", with_damaged_bit(&bits(0b10)), 16),
        ("B1: bits 11, CRC_32 wrong", with_damaged_bit(&bits(0b11)), 15),
        ("B1: bits 00, without reserved bits", with_byte(&bits(0b00), 1, 0x00), 15),
        ("B1: bits 01, without reserved bits", with_byte(&bits(0b01), 1, 0x40), 24),
        ("B1: bits 11, without reserved bits", with_byte(&bits(0b11), 1, 0xC0), 15),
    ]
}

/// 12, 13 and 14 stand before 24, and 16 to 19 after it, whoever is addressed.
#[rustfmt::skip] // one row per line
fn checksum_form() -> Vec<Row> {
    let of_length = |length| with_indicators(&with_payload(length), CHECKSUM_FORM);
    let (shortest, longest) = (of_length(0), of_length(4_080));
    let mut section_length = shortest.clone();
    section_length[2] += 1;
    seal(&mut section_length);
    vec![
        ("B1: bits 01 in 15 bytes", shortest[..15].to_vec(), 12),
        ("B1: bits 01 in another table", with_byte(&shortest, 0, 0x4C), 13),
        ("B1: bits 01, section_length one too long", section_length, 14),
        ("B1: bits 01, section_length 4,094 in 4,097 bytes", of_length(4_081), 14),
        ("B1: bits 01 in 16 bytes", shortest.clone(), 24),
        ("B1: bits 01 in 4,096 bytes", longest, 24),
        ("B1: bits 01, 0 in CRC_32's place", in_checksum_form(&shortest, [0; 4]), 24),
        ("B1: bits 01, current_next_indicator 0", with_byte(&shortest, 5, 0xC0), 24),
        ("B1: bits 01, section_number 1 of 0", with_byte(&shortest, 6, 1), 24),
        ("B1: bits 01, address scrambling 01", with_byte(&shortest, 5, 0xC5), 24),
        ("B1: bits 01, another's address", with_byte(&shortest, 3, 0x31), 24),
    ]
}

#[cfg(test)]
mod tests {
    use super::sections;
    use crate::check;

    #[test]
    fn each_gets_its_number() {
        for section in sections() {
            assert_eq!(check(&section.bytes), section.number, "{}", section.source);
        }
    }
}
