//! INT sections: sound ones with any loops, and faults put into them on purpose.

use super::{seal, set_section_length};
use crate::notification::{
    HEADER, SHORTEST, STREAM_LOCATION, TABLE_ID, TARGET_MAC_ADDRESS, TARGET_MAC_ADDRESS_RANGE,
};
use crate::random::Random;
use crate::section::{BEFORE_LENGTH, CRC_32, LONGEST};

/// The checks of the reader, in their order.
pub const CHECKS: [u8; 11] = [12, 13, 14, 15, 16, 17, 18, 30, 31, 32, 33];

/// A sound section with these loops: the platform's, then targets and operational ones by turns.
pub fn with_loops(loops: &[Vec<u8>]) -> Vec<u8> {
    let mut section = vec![
        TABLE_ID, 0xF0, 0, 0x01, 0x07, 0xC1, 0, 0, 0x01, 0x02, 0x04, 0,
    ];
    for descriptors in loops {
        section.extend((0xF000 | descriptors.len() as u16).to_be_bytes());
        section.extend(descriptors);
    }
    section.extend([0; CRC_32]);
    finished(section)
}

/// `section` with section_length and CRC_32 right.
pub fn finished(mut section: Vec<u8>) -> Vec<u8> {
    let section_length = section.len() - BEFORE_LENGTH;
    set_section_length(&mut section, section_length);
    seal(&mut section);
    section
}

/// Tag, length, bytes.
pub fn descriptor(tag: u8, bytes: &[u8]) -> Vec<u8> {
    let mut descriptor = vec![tag, bytes.len() as u8];
    descriptor.extend(bytes);
    descriptor
}

/// Descriptors of other tags that fill exactly `length` bytes, which are 0, 2 or more.
pub fn filler(random: &mut Random, length: usize) -> Vec<u8> {
    let mut filler = Vec::new();
    while filler.len() < length {
        let left = length - filler.len();
        // Never so long that a single byte is left.
        let most = if left == 258 {
            254
        } else {
            (left - 2).min(255)
        };
        filler.extend(descriptor(
            random.pick(&[0x00, 0x09, 0x0F, 0x80, 0xFF]),
            &vec![0x13; most],
        ));
    }
    filler
}

/// A device and a sound section, in which it often is covered.
pub fn any_notification(random: &mut Random) -> ([u8; 6], Vec<u8>) {
    faulty(random, &[])
}

/// A device, and a section to which the checks of `faults` apply, and no others, as far as the
/// check in front lets one see.
pub fn faulty(random: &mut Random, faults: &[u8]) -> ([u8; 6], Vec<u8>) {
    let device = any_device(random);
    let mut loops = any_loops(random, device);
    if faults.contains(&33) {
        let to = random.below(loops.len());
        let wrong = wrong_length(random);
        loops[to].extend(wrong);
    }
    let mut section = with_loops(&loops);
    if faults.contains(&32) {
        section = misfit(random, section, &loops);
    }
    section[1] ^= random.pick(&[0, 0x40]); // bit 6 is ignored
    for &fault in faults {
        spoil(random, &mut section, fault);
    }
    seal(&mut section);
    if faults.contains(&16) {
        let last = section.len() - 1;
        section[last - random.below(CRC_32)] ^= 1 << random.below(8);
    }
    if faults.contains(&12) {
        section.truncate(random.below(SHORTEST));
    }
    (device, section)
}

fn any_device(random: &mut Random) -> [u8; 6] {
    match random.below(16) {
        0 => [0; 6],
        1 => [0xFF; 6],
        _ => from_number(random.below(1 << 48)),
    }
}

fn from_number(number: usize) -> [u8; 6] {
    let [_, _, address @ ..] = (number as u64).to_be_bytes();
    address
}

/// Loops for a section of at most 4,096 bytes, with room for one descriptor more; some sections are
/// filled up.
fn any_loops(random: &mut Random, device: [u8; 6]) -> Vec<Vec<u8>> {
    let pairs = random.pick(&[0, 1, 1, 2, 2, 3, 6]);
    let mut loops: Vec<Vec<u8>> = (0..1 + 2 * pairs)
        .map(|_| {
            let count = random.pick(&[0, 0, 1, 1, 2, 3]);
            (0..count)
                .flat_map(|_| any_descriptor(random, device))
                .collect()
        })
        .collect();
    let room = LONGEST - 30 - with_loops(&loops).len();
    if random.one_in(10) {
        let turn = random.below(loops.len());
        let length = random.pick(&[2, 300, room]);
        let filler = filler(random, length);
        loops[turn].extend(filler);
    }
    loops
}

/// One whose length is right.
fn any_descriptor(random: &mut Random, device: [u8; 6]) -> Vec<u8> {
    match random.below(4) {
        0 => {
            let count = random.pick(&[0, 1, 1, 2, 3]);
            let addresses = (0..count).flat_map(|_| near(random, device));
            let addresses: Vec<u8> = addresses.collect();
            descriptor(
                TARGET_MAC_ADDRESS,
                &[&any_mask(random), &addresses[..]].concat(),
            )
        }
        1 => {
            let ends = random.pick(&[0, 2, 2, 4, 6]);
            let addresses = (0..ends).flat_map(|_| near(random, device));
            descriptor(TARGET_MAC_ADDRESS_RANGE, &addresses.collect::<Vec<_>>())
        }
        2 => descriptor(STREAM_LOCATION, &random.bytes(9)),
        _ => {
            let length = random.pick(&[0, 0, 1, 6, 9, 12, 40]);
            descriptor(
                random.pick(&[0x00, 0x06, 0x08, 0x0D, 0x0F, 0x12, 0xFF]),
                &random.bytes(length),
            )
        }
    }
}

/// The device's address, its neighbours, those that differ in one bit or in one byte and all after
/// it, and any.
fn near(random: &mut Random, device: [u8; 6]) -> [u8; 6] {
    let number = device
        .iter()
        .fold(0, |number, byte| number << 8 | usize::from(*byte));
    match random.below(10) {
        0 | 1 => device,
        2 => from_number(number.wrapping_add(1)),
        3 => from_number(number.wrapping_sub(1)),
        4 | 5 => from_number(number ^ 1 << random.below(48)),
        6 | 7 => apart(random, device),
        8 => random.pick(&[[0; 6], [0xFF; 6]]),
        _ => any_device(random),
    }
}

/// One up or down in one byte; those after it are all 00 or all FF, so that taken for themselves
/// they often say the opposite.
fn apart(random: &mut Random, mut address: [u8; 6]) -> [u8; 6] {
    let byte = random.below(6);
    address[byte] = address[byte].wrapping_add(random.pick(&[1, 0xFF]));
    address[byte + 1..].fill(random.pick(&[0x00, 0xFF]));
    address
}

fn any_mask(random: &mut Random) -> [u8; 6] {
    let ones = (1 << 48) - 1;
    match random.below(6) {
        0 => [0; 6],
        1 | 2 => [0xFF; 6],
        3 => from_number(ones ^ 1 << random.below(48)),
        4 => from_number(1 << random.below(48)),
        _ => from_number(ones << random.below(48) & ones),
    }
}

/// A known descriptor of another length than it has.
fn wrong_length(random: &mut Random) -> Vec<u8> {
    let (tag, length) = random.pick(&[
        (TARGET_MAC_ADDRESS, 0),
        (TARGET_MAC_ADDRESS, 5),
        (TARGET_MAC_ADDRESS, 7),
        (TARGET_MAC_ADDRESS, 9),
        (TARGET_MAC_ADDRESS_RANGE, 1),
        (TARGET_MAC_ADDRESS_RANGE, 6),
        (TARGET_MAC_ADDRESS_RANGE, 13),
        (TARGET_MAC_ADDRESS_RANGE, 18),
        (STREAM_LOCATION, 0),
        (STREAM_LOCATION, 8),
        (STREAM_LOCATION, 10),
        (STREAM_LOCATION, 18),
    ]);
    descriptor(tag, &random.bytes(length))
}

/// `section`, which has these loops, with its last loop one byte short, or with something after it
/// that does not fill the rest.
fn misfit(random: &mut Random, mut section: Vec<u8>, loops: &[Vec<u8>]) -> Vec<u8> {
    let end = section.len() - CRC_32;
    let last = loops.last().map_or(&[][..], |last| &last[..]);
    let low_byte = end - last.len() - 1;
    match random.below(5) {
        0 => section.insert(end, 0xF0),
        1 => drop(section.splice(end..end, [0xF0, 0x00])), // a target loop alone
        2 if last.is_empty() => drop(section.splice(end..end, [0xF0, 0x00, 0xF0])),
        2 => section[low_byte] = section[low_byte].wrapping_sub(1),
        3 => drop(section.splice(end..end, [0xF0, 0x00, 0xF0, 0x03, 0x80, 0x02, 0x00])),
        _ => drop(section.splice(end..end, [0xF0, 0x03, 0x80, 0x00, 0x80, 0xF0, 0x00])),
    }
    finished(section)
}

/// Puts one fault in, save those that stand only in a section that is otherwise done.
fn spoil(random: &mut Random, section: &mut [u8], fault: u8) {
    match fault {
        13 => section[0] = random.pick(&[0x3E, 0x4B, 0x4D, 0xCC]),
        14 => {
            let section_length = section.len() - BEFORE_LENGTH;
            set_section_length(section, section_length + random.pick(&[1, 2, 256, 4_095]));
        }
        15 => section[1] &= 0x7F,
        17 => section[5] &= !1,
        18 => section[6..8].copy_from_slice(&random.pick(&[[1, 0], [255, 254], [128, 127]])),
        30 => section[3] = random.pick(&[0x00, 0x02, 0x81, 0xFF]),
        31 => section[random.pick(&[4, 8, 9, 10])] ^= 1 << random.below(8),
        _ => {}
    }
}

/// Sections of any kind: sound ones with some bytes of the loops changed and CRC_32 right again.
pub fn bytes_changed(random: &mut Random) -> ([u8; 6], Vec<u8>) {
    let (device, mut section) = any_notification(random);
    for _ in 0..random.between(1, 3) {
        let offset = random.between(HEADER, section.len() - CRC_32 - 1);
        section[offset] = match random.below(3) {
            0 => section[offset].wrapping_add(1),
            1 => section[offset].wrapping_sub(1),
            _ => random.byte(),
        };
    }
    seal(&mut section);
    (device, section)
}
