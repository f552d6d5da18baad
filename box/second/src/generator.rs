//! Inputs for the tests: sections made as a sender makes them, and faults put into them on purpose.

pub mod datagrams;
pub mod notifications;
pub mod recordings;
pub mod rows;

use crate::listing::SETTINGS;
use crate::random::Random;
use crate::section::{BEFORE_LENGTH, CRC_32, HEADER, LONGEST, SHORTEST, TABLE_ID};
use crate::sender::write_section;
use crate::tables::slicing_by_16 as crc_32;

/// The address of the papers' samples, 02:00:5E:10:20:30.
pub const OURS: [u8; 6] = SETTINGS.address;

/// The checks of a section, in their order: 24 stands at 15's place.
pub const CHECKS: [u8; 9] = [12, 13, 14, 15, 24, 16, 17, 18, 19];

/// section_syntax_indicator 0 and private_indicator 1: the checksum form of ISO/IEC 13818-6 (02,
/// request 2).
pub const CHECKSUM_FORM: u8 = 0b01;

/// Every set of `numbers`, each in their order: the empty one first, all of them last.
pub fn subsets(numbers: &[u8]) -> impl Iterator<Item = Vec<u8>> + '_ {
    (0..1_u32 << numbers.len()).map(move |set| {
        let chosen = numbers
            .iter()
            .enumerate()
            .filter(|(bit, _)| (set >> bit) & 1 == 1);
        chosen.map(|(_, &number)| number).collect()
    })
}

/// Every set of faults that a section can have, each in the order of the checks. None has both 15
/// and 24: they are said of the same two bits, and exclude one another.
pub fn sets_of_faults() -> impl Iterator<Item = Vec<u8>> {
    subsets(&CHECKS).filter(|faults| !(faults.contains(&15) && faults.contains(&24)))
}

/// A sound section, as a sender writes it (01, "The sender"); `address` as printed, MAC_address_1
/// first.
pub fn sound(
    address: [u8; 6],
    section_number: u8,
    last_section_number: u8,
    payload: &[u8],
) -> Vec<u8> {
    let mut section = vec![0; SHORTEST + payload.len()];
    let numbers = [section_number, last_section_number];
    write_section(&mut section, address, false, numbers, payload);
    section
}

/// Writes the low 12 bits of `section_length` into its field.
pub fn set_section_length(section: &mut [u8], section_length: usize) {
    section[1] = (section[1] & 0xF0) | ((section_length >> 8) & 0x0F) as u8;
    section[2] = section_length as u8;
}

/// Writes section_syntax_indicator and private_indicator, the two bits of `indicators`.
pub fn set_indicators(section: &mut [u8], indicators: u8) {
    section[1] = (indicators << 6) | (section[1] & 0x3F);
}

/// Writes the address, given as printed: MAC_address_1 to 4 into bytes 11 to 8, 5 and 6 into 4 and 3.
pub fn set_address(section: &mut [u8], address: [u8; 6]) {
    for (place, byte) in [11, 10, 9, 8, 4, 3].into_iter().zip(address) {
        section[place] = byte;
    }
}

/// Makes CRC_32 right.
pub fn seal(section: &mut [u8]) {
    let (before, field) = section.split_at_mut(section.len() - CRC_32);
    field.copy_from_slice(&crc_32(before).to_be_bytes());
}

/// `section` with another byte at `offset`, and CRC_32 right.
pub fn with_byte(section: &[u8], offset: usize, byte: u8) -> Vec<u8> {
    let mut section = section.to_vec();
    section[offset] = byte;
    seal(&mut section);
    section
}

/// `section` with LLC_SNAP_flag 1, and CRC_32 right.
pub fn with_llc_snap(section: &[u8]) -> Vec<u8> {
    with_byte(section, 5, section[5] | 0x02)
}

/// `section` with one bit after its header received wrong.
pub fn with_damaged_bit(section: &[u8]) -> Vec<u8> {
    let mut section = section.to_vec();
    section[HEADER] ^= 1;
    section
}

/// `section` in the checksum form, with this checksum in CRC_32's place.
pub fn in_checksum_form(section: &[u8], checksum: [u8; CRC_32]) -> Vec<u8> {
    let before = &section[..section.len() - CRC_32];
    let mut section = [before, &checksum].concat();
    set_indicators(&mut section, CHECKSUM_FORM);
    section
}

/// A sound section for anyone: most are short, some of any length, and what the check ignores is of
/// any value.
pub fn any_sound(random: &mut Random) -> Vec<u8> {
    faulty(random, &[])
}

/// A section to which the checks of `faults` apply, and no others, as far as the check in front
/// lets one see. Where `faults` has both 15 and 24, only the later one does.
pub fn faulty(random: &mut Random, faults: &[u8]) -> Vec<u8> {
    let mut section = any_unsealed(random);
    for &fault in faults {
        spoil(random, &mut section, fault);
    }
    seal(&mut section);
    if faults.contains(&16) {
        let bit = random.below(8 * CRC_32);
        let last = section.len() - 1;
        section[last - bit / 8] ^= 1 << (bit % 8);
    }
    if faults.contains(&12) {
        section.truncate(random.below(SHORTEST));
    }
    section
}

/// [`any_sound`], but for its CRC_32.
fn any_unsealed(random: &mut Random) -> Vec<u8> {
    let longest = LONGEST - SHORTEST;
    let payload_length = match random.below(64) {
        0 => longest,
        1..=4 => random.between(0, longest),
        5..=9 => 0,
        _ => random.between(0, 40),
    };
    let mut section = vec![TABLE_ID, 0x80 | (random.byte() & 0x30), 0];
    section.extend(random.bytes(SHORTEST + payload_length - BEFORE_LENGTH));
    let section_length = section.len() - BEFORE_LENGTH;
    set_section_length(&mut section, section_length);
    section[5] = (section[5] & !0x0C) | 0x01; // address scrambling 00, current_next_indicator 1
    section[6] = random.between(0, section[7].into()) as u8;
    section
}

/// Puts one fault in, save 12 and 16, which stand only in a section that is otherwise done.
fn spoil(random: &mut Random, section: &mut Vec<u8>, fault: u8) {
    match fault {
        13 => section[0] ^= random.between(1, 0xFF) as u8,
        14 => spoil_length(random, section),
        15 => set_indicators(section, random.pick(&[0b00, 0b11])),
        24 => set_indicators(section, CHECKSUM_FORM),
        17 => section[5] &= !1,
        18 => {
            let last_section_number = random.below(255);
            section[6] = random.between(last_section_number + 1, 255) as u8;
            section[7] = last_section_number as u8;
        }
        19 => section[5] |= (random.between(1, 3) as u8) << 2,
        _ => {}
    }
}

/// The two halves of 14: a field that is not the slice's length minus 3, or one that is, and over
/// 4,093.
fn spoil_length(random: &mut Random, section: &mut Vec<u8>) {
    let section_length = section.len() - BEFORE_LENGTH;
    match random.below(4) {
        0 => set_section_length(section, section_length + random.between(1, 0xFFF)),
        1 => section.resize(section.len() + random.between(1, 5), 0),
        2 if section.len() > SHORTEST => {
            section.truncate(random.between(SHORTEST, section.len() - 1));
        }
        _ => {
            let over = random.between(4_094, 4_095);
            section.truncate(HEADER);
            section.resize(BEFORE_LENGTH + over, random.byte());
            set_section_length(section, over);
        }
    }
}

/// `section` changed in one to three ways of any kind, half of them in its header; section_length is
/// often right again, and CRC_32 more often.
pub fn mutated(random: &mut Random, mut section: Vec<u8>) -> Vec<u8> {
    for _ in 0..random.between(1, 3) {
        let end = if random.one_in(2) { HEADER } else { LONGEST };
        let offset = random.below(section.len().clamp(1, end));
        let more = random.between(1, 20);
        match random.below(8) {
            0 => section.truncate(offset),
            1 => section.extend(random.bytes(more)),
            2 if section.len() >= BEFORE_LENGTH => {
                set_section_length(&mut section, random.below(4_096))
            }
            _ if offset >= section.len() => section.push(random.byte()),
            3 => section.insert(offset, random.byte()),
            4 => drop(section.remove(offset)),
            5 => section[offset] = random.byte(),
            _ => section[offset] ^= 1 << random.below(8),
        }
    }
    if section.len() >= SHORTEST {
        let section_length = section.len() - BEFORE_LENGTH;
        if random.one_in(2) {
            set_section_length(&mut section, section_length);
        }
        if !random.one_in(4) {
            seal(&mut section);
        }
    }
    section
}

#[cfg(test)]
mod tests {
    use super::*;
    use crate::check;

    #[test]
    fn sound_sections_are_sound() {
        let mut random = Random::new(1);
        for _ in 0..2_000 {
            assert_eq!(check(&any_sound(&mut random)), 0);
        }
    }

    #[test]
    fn the_first_fault_decides() {
        let mut random = Random::new(2);
        for faults in sets_of_faults() {
            for _ in 0..20 {
                let section = faulty(&mut random, &faults);
                let first = faults.first().copied().unwrap_or(0);
                assert_eq!(check(&section), first, "{faults:?} in {section:02X?}");
            }
        }
    }
}
