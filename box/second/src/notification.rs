//! The INT section, action 0x01 (EN 301 192 clause 7.6, table 13; 01, "The INT section").

use crate::section::CRC_32;
use crate::tables::slicing_by_16 as crc_32;

/// table_id of an INT section.
pub const TABLE_ID: u8 = 0x4C;
/// Bytes before the platform loop.
pub const HEADER: usize = 12;
/// The fewest bytes that a section has: header, an empty platform loop, CRC_32.
pub const SHORTEST: usize = HEADER + 2 + CRC_32;

/// target_MAC_address_descriptor (table 24).
pub const TARGET_MAC_ADDRESS: u8 = 0x07;
/// target_MAC_address_range_descriptor (table 25).
pub const TARGET_MAC_ADDRESS_RANGE: u8 = 0x0E;
/// IP/MAC_stream_location_descriptor (table 32).
pub const STREAM_LOCATION: u8 = 0x13;

/// What the reader answers.
#[derive(Clone, Copy, Debug, PartialEq, Eq)]
pub struct Answer {
    /// The paper's number.
    pub number: u8,
    /// Where the nine bytes of the location stand in the section; 0 for all numbers but 3.
    pub offset: usize,
}

struct Descriptor<'a> {
    tag: u8,
    /// Where its bytes stand in the section, after tag and length.
    offset: usize,
    bytes: &'a [u8],
}

type Loop<'a> = Vec<Descriptor<'a>>;

struct Pair<'a> {
    target: Loop<'a>,
    operational: Loop<'a>,
}

struct Body<'a> {
    platform: Loop<'a>,
    pairs: Vec<Pair<'a>>,
}

/// Where `device`, its address as printed, finds its stream.
pub fn read(device: [u8; 6], section: &[u8]) -> Answer {
    let fault = header_fault(section);
    let refused = |number| Answer { number, offset: 0 };
    if fault != 0 {
        return refused(fault);
    }
    match Body::read(section) {
        None => refused(32),
        Some(body) if !body.known_lengths_are_right() => refused(33),
        Some(body) => body.search(device),
    }
}

/// The fields of a section that [`read`] answers by 3 or 4, as one line: those of the header, then
/// each loop's length and its descriptors' tags and lengths.
pub fn fields(section: &[u8]) -> Option<String> {
    if header_fault(section) != 0 {
        return None;
    }
    let body = Body::read(section).filter(Body::known_lengths_are_right)?;
    let mut line = format!(
        "action_type {:02X} platform_id_hash {:02X} platform_id {:02X}{:02X}{:02X} processing_order {:02X}",
        section[3], section[4], section[8], section[9], section[10], section[11]
    );
    line += &loop_fields("platform", &body.platform);
    for pair in &body.pairs {
        line += &loop_fields("target", &pair.target);
        line += &loop_fields("operational", &pair.operational);
    }
    Some(line)
}

fn loop_fields(name: &str, descriptors: &Loop) -> String {
    let length: usize = descriptors.iter().map(|each| 2 + each.bytes.len()).sum();
    let each = descriptors
        .iter()
        .map(|each| format!(" {:02X}/{}", each.tag, each.bytes.len()));
    format!(" {name} {length}:{}", each.collect::<String>())
}

/// The first of 12 to 18, 30 and 31 that applies, else 0.
fn header_fault(section: &[u8]) -> u8 {
    if section.len() < SHORTEST {
        return 12;
    }
    let section_length = low_12_bits(&section[1..]);
    let (before, field) = section.split_at(section.len() - CRC_32);
    if section[0] != TABLE_ID {
        13
    } else if section_length > 4_093 || section_length != section.len() - 3 {
        14
    } else if section[1] & 0x80 == 0 {
        15
    } else if crc_32(before).to_be_bytes() != field {
        16
    } else if section[5] & 1 == 0 {
        17
    } else if section[6] > section[7] {
        18
    } else if section[3] != 0x01 {
        30
    } else if section[4] != section[8] ^ section[9] ^ section[10] {
        31
    } else {
        0
    }
}

fn low_12_bits(bytes: &[u8]) -> usize {
    usize::from(u16::from_be_bytes([bytes[0], bytes[1]]) & 0x0FFF)
}

impl<'a> Body<'a> {
    /// All loops and descriptors, if they fill the section exactly.
    fn read(section: &'a [u8]) -> Option<Self> {
        let before = &section[..section.len() - CRC_32];
        let (platform, mut offset) = read_loop(before, HEADER)?;
        let mut pairs = Vec::new();
        while offset < before.len() {
            let (target, after_target) = read_loop(before, offset)?;
            let (operational, after) = read_loop(before, after_target)?;
            pairs.push(Pair {
                target,
                operational,
            });
            offset = after;
        }
        Some(Self { platform, pairs })
    }

    fn known_lengths_are_right(&self) -> bool {
        let of_pairs = self.pairs.iter();
        let mut loops = of_pairs
            .flat_map(|pair| [&pair.target, &pair.operational])
            .chain([&self.platform]);
        loops.all(|descriptors| descriptors.iter().all(Descriptor::length_is_right))
    }

    fn search(&self, device: [u8; 6]) -> Answer {
        let found = self
            .pairs
            .iter()
            .filter(|pair| covers(&pair.target, device))
            .find_map(|pair| location(&pair.operational).or_else(|| location(&self.platform)));
        match found {
            Some(offset) => Answer { number: 3, offset },
            None => Answer {
                number: 4,
                offset: 0,
            },
        }
    }
}

/// The loop whose length stands at `offset`, if it ends within `bytes` and its descriptors fill it,
/// and where it ends.
fn read_loop(bytes: &[u8], offset: usize) -> Option<(Loop<'_>, usize)> {
    let start = offset + 2;
    let end = start + low_12_bits(bytes.get(offset..start)?);
    let bytes = bytes.get(..end)?;
    let mut descriptors = Loop::new();
    let mut at = start;
    while at < end {
        let length = usize::from(*bytes.get(at + 1)?);
        descriptors.push(Descriptor {
            tag: bytes[at],
            offset: at + 2,
            bytes: bytes.get(at + 2..at + 2 + length)?,
        });
        at += 2 + length;
    }
    Some((descriptors, end))
}

impl Descriptor<'_> {
    fn length_is_right(&self) -> bool {
        let length = self.bytes.len();
        match self.tag {
            TARGET_MAC_ADDRESS => length >= 6 && length % 6 == 0,
            TARGET_MAC_ADDRESS_RANGE => length % 12 == 0,
            STREAM_LOCATION => length == 9,
            _ => true,
        }
    }

    /// Of a descriptor whose length is right.
    fn covers(&self, device: [u8; 6]) -> bool {
        match self.tag {
            TARGET_MAC_ADDRESS => {
                let (mask, addresses) = self.bytes.split_at(6);
                addresses
                    .chunks(6)
                    .any(|address| equal_under(mask, address, device))
            }
            TARGET_MAC_ADDRESS_RANGE => {
                let mut pairs = self.bytes.chunks(12);
                pairs.any(|pair| in_range(pair, device))
            }
            _ => false,
        }
    }
}

fn equal_under(mask: &[u8], address: &[u8], device: [u8; 6]) -> bool {
    (0..6).all(|i| address[i] & mask[i] == device[i] & mask[i])
}

/// "From MAC_addr_low up to and including MAC_addr_high": table 25 has them as numbers of 48 bits.
fn in_range(pair: &[u8], device: [u8; 6]) -> bool {
    let (lowest, highest) = pair.split_at(6);
    (number(lowest)..=number(highest)).contains(&number(&device))
}

/// The most significant byte is first.
fn number(address: &[u8]) -> u64 {
    address
        .iter()
        .fold(0, |number, byte| number << 8 | u64::from(*byte))
}

fn covers(target: &Loop, device: [u8; 6]) -> bool {
    target.is_empty() || target.iter().any(|descriptor| descriptor.covers(device))
}

fn location(descriptors: &Loop) -> Option<usize> {
    let first = descriptors
        .iter()
        .find(|descriptor| descriptor.tag == STREAM_LOCATION)?;
    Some(first.offset)
}

#[cfg(test)]
mod tests {
    use super::*;
    use crate::generator::notifications::{any_notification, faulty, with_loops, CHECKS};
    use crate::generator::subsets;
    use crate::random::Random;
    use crate::telling::notifications;

    #[test]
    fn each_telling_section_gets_its_answer() {
        for notification in notifications() {
            let Answer { number, offset } = read(notification.device, &notification.section);
            let answer = (number, offset);
            assert_eq!(answer, notification.answer, "{}", notification.source);
        }
    }

    #[test]
    fn the_first_fault_decides() {
        let mut random = Random::new(1);
        for faults in subsets(&CHECKS) {
            for _ in 0..4 {
                let (device, section) = faulty(&mut random, &faults);
                let number = read(device, &section).number;
                match faults.first() {
                    Some(first) => assert_eq!(number, *first, "{faults:?} in {section:02X?}"),
                    None => assert!(number == 3 || number == 4, "{section:02X?}"),
                }
            }
        }
    }

    #[test]
    fn fields_are_told_of_sections_that_are_answered() {
        let loops: [&[u8]; 3] = [b"", b"\x80\x00\x07\x06\0\0\0\0\0\0", b"\x13\x09location!"];
        let section = with_loops(&loops.map(<[u8]>::to_vec));
        assert_eq!(
            fields(&section).as_deref(),
            Some(
                "action_type 01 platform_id_hash 07 platform_id 010204 processing_order 00 \
                 platform 0: target 10: 80/0 07/6 operational 11: 13/9"
            )
        );
        assert_eq!(fields(&section[1..]), None);
    }

    #[test]
    fn a_location_is_a_descriptor_of_its_own() {
        let mut random = Random::new(2);
        for _ in 0..2_000 {
            let (device, section) = any_notification(&mut random);
            let answer = read(device, &section);
            if answer.number == 3 {
                let before = &section[answer.offset - 2..answer.offset];
                assert_eq!(before, [STREAM_LOCATION, 9]);
            }
        }
    }
}
