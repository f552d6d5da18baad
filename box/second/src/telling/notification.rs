//! INT sections for the reader.

use crate::generator::notifications::{descriptor, finished, with_loops};
use crate::generator::{seal, with_byte, with_damaged_bit, OURS};

/// A section, and what is answered for a device.
pub struct Notification {
    /// Where in the papers it comes from.
    pub source: &'static str,
    /// The device's address, as printed.
    pub device: [u8; 6],
    /// The section.
    pub section: Vec<u8>,
    /// Number and offset.
    pub answer: (u8, usize),
}

/// All of them.
pub fn notifications() -> Vec<Notification> {
    let rows = headers().into_iter().chain(loops()).chain(lengths());
    let rows = rows.chain(covering()).chain(locations());
    rows.map(|(source, section, number, offset)| Notification {
        source,
        device: OURS,
        section,
        answer: (number, offset),
    })
    .chain(ranges())
    .collect()
}

type Row = (&'static str, Vec<u8>, u8, usize);

const LOCATION: &[u8] = b"\x13\x09location!";
const ELSEWHERE: &[u8] = b"\x13\x09elsewhere";
const UNKNOWN: &[u8] = b"\x80\x00";
const NONE: &[u8] = b"";

/// A section with these loops: platform, then targets and operational ones by turns.
fn int(loops: &[&[u8]]) -> Vec<u8> {
    with_loops(&loops.iter().map(|bytes| bytes.to_vec()).collect::<Vec<_>>())
}

/// One pair, whose target loop is this, with a location.
fn targeted(target: &[u8]) -> Vec<u8> {
    int(&[NONE, target, LOCATION])
}

/// `section` with these bytes before its CRC_32.
fn with_stray(section: Vec<u8>, stray: &[u8]) -> Vec<u8> {
    let end = section.len() - 4;
    finished([&section[..end], stray, &[0; 4]].concat())
}

fn one_address(mask: [u8; 6], address: [u8; 6]) -> Vec<u8> {
    descriptor(0x07, &[mask, address].concat())
}

fn range(lowest: [u8; 6], highest: [u8; 6]) -> Vec<u8> {
    descriptor(0x0E, &[lowest, highest].concat())
}

#[rustfmt::skip] // one row per line
fn headers() -> Vec<Row> {
    let empty = int(&[NONE]);
    let mut section_length = empty.clone();
    section_length[2] += 1;
    seal(&mut section_length);
    let bits = |indicators: u8| with_byte(&empty, 1, indicators << 6 | 0x30);
    vec![
        ("A3: 17 bytes", empty[..17].to_vec(), 12, 0),
        ("A3: 17 bytes, all right but for that", with_stray(empty[..16].to_vec(), &[0]), 12, 0),
        ("01: table_id 0x3E", with_byte(&empty, 0, 0x3E), 13, 0),
        ("01: section_length one too long", section_length, 14, 0),
        ("B1: bits 00", bits(0b00), 15, 0),
        ("B1: bits 01", bits(0b01), 15, 0),
        ("B1: bits 10", bits(0b10), 4, 0),
        ("B1: bits 11", bits(0b11), 4, 0),
        ("B1: bits 00, CRC_32 wrong", with_damaged_bit(&bits(0b00)), 15, 0),
        ("B1: bits 01, CRC_32 wrong", with_damaged_bit(&bits(0b01)), 15, 0),
        ("B1: bits 10, CRC_32 wrong", with_damaged_bit(&bits(0b10)), 16, 0),
        ("B1: bits 11, CRC_32 wrong", with_damaged_bit(&bits(0b11)), 16, 0),
        ("01: current_next_indicator 0", with_byte(&empty, 5, 0xC0), 17, 0),
        ("01: section_number 1 of 0", with_byte(&empty, 6, 1), 18, 0),
        ("01: action 0x02", with_byte(&empty, 3, 0x02), 30, 0),
        ("01: platform_id 01 02 04 has hash 07", empty.clone(), 4, 0),
        ("01: platform_id 01 02 04, hash 06", with_byte(&empty, 4, 0x06), 31, 0),
        ("A31: any processing_order", with_byte(&empty, 11, 0x77), 4, 0),
        ("A31: any version", with_byte(&empty, 5, 0x3F), 4, 0),
    ]
}

#[rustfmt::skip] // one row per line
fn loops() -> Vec<Row> {
    let located = int(&[LOCATION]);
    let eight_bytes = int(&[b"\x13\x0812345678"]);
    let mut overrun = targeted(NONE);
    overrun[17] += 1; // the operational loop's length
    seal(&mut overrun);
    vec![
        ("A25: 32 before an earlier 33", with_stray(eight_bytes.clone(), &[0]), 32, 0),
        ("A25: 33 alone", eight_bytes, 33, 0),
        ("A27: no pairs, a location of the platform", located.clone(), 4, 0),
        ("A27: one byte left", with_stray(located.clone(), &[0xF0]), 32, 0),
        ("A27: a target loop without its operational loop", with_stray(located.clone(), &[0xF0, 0]), 32, 0),
        ("A27: half of the operational loop's length", with_stray(located, &[0xF0, 0, 0xF0]), 32, 0),
        ("01: a loop that overruns by one", overrun, 32, 0),
        ("01: a descriptor that overruns its loop by one", int(&[b"\x80\x01", b"\x80\x00", NONE]), 32, 0),
        ("01: a tag without its length", int(&[b"\x80"]), 32, 0),
        ("01: loop lengths are the low 12 bits", with_byte(&targeted(NONE), 12, 0x00), 3, 20),
    ]
}

#[rustfmt::skip] // one row per line
fn lengths() -> Vec<Row> {
    let all = one_address([0; 6], OURS);
    vec![
        ("A23: 0x07 of 5 bytes in the platform loop", int(&[b"\x07\x0512345"]), 33, 0),
        ("A23: 0x07 of 5 bytes in an operational loop", int(&[NONE, NONE, b"\x07\x0512345"]), 33, 0),
        ("A23: 0x13 of 10 bytes in a target loop", targeted(b"\x13\x0A1234567890"), 33, 0),
        ("A23: a 0x07 that matches in an operational loop", int(&[LOCATION, UNKNOWN, &all]), 4, 0),
        ("A25: 33 after the covering pair", int(&[NONE, NONE, LOCATION, b"\x0E\x01!", NONE]), 33, 0),
        ("A26: 0x07 of length 0", targeted(b"\x07\x00"), 33, 0),
        ("A26: 0x07 with no address", targeted(b"\x07\x06\0\0\0\0\0\0"), 4, 0),
        ("A26: 0x0E of length 0", targeted(b"\x0E\x00"), 4, 0),
        ("01: 0x0E of one address", targeted(b"\x0E\x06\0\0\0\0\0\0"), 33, 0),
        ("01: 0x07 of one address and a half", targeted(b"\x07\x0F\0\0\0\0\0\0\0\0\0\0\0\0\0\0\0"), 33, 0),
    ]
}

#[rustfmt::skip] // one row per line
fn covering() -> Vec<Row> {
    let ones = [0xFF; 6];
    let next = [0x02, 0x00, 0x5E, 0x10, 0x20, 0x31];
    let before = [0x02, 0x00, 0x5E, 0x10, 0x20, 0x2F];
    let lower_low_bytes = [0x02, 0x00, 0x5F, 0x00, 0x00, 0x00];
    let no_low_bit = [0xFF, 0xFF, 0xFF, 0xFF, 0xFF, 0xFE];
    let second_of_two = [&one_address(ones, next)[..], &range(OURS, OURS)].concat();
    vec![
        ("01: an empty target loop", targeted(NONE), 3, 20),
        ("01: a target loop of unknown tags", targeted(UNKNOWN), 4, 0),
        ("A22: 0x13 as a target", int(&[NONE, LOCATION, NONE]), 4, 0),
        ("A22: 0x13 as a target, a location of the platform", int(&[ELSEWHERE, LOCATION, NONE]), 4, 0),
        ("01: the own address", targeted(&one_address(ones, OURS)), 3, 34),
        ("01: another address", targeted(&one_address(ones, next)), 4, 0),
        ("01: another address, the mask's bit 0 clear", targeted(&one_address(no_low_bit, next)), 3, 34),
        ("A26: mask 0", targeted(&one_address([0; 6], next)), 3, 34),
        ("01: lowest and highest the device's", targeted(&range(OURS, OURS)), 3, 34),
        ("01: lowest above the device's", targeted(&range(next, ones)), 4, 0),
        ("01: highest below the device's", targeted(&range([0; 6], before)), 4, 0),
        ("01: highest above only in its third byte", targeted(&range(before, lower_low_bytes)), 3, 34),
        ("01: lowest above highest", targeted(&range(next, before)), 4, 0),
        ("01: the second descriptor covers", targeted(&second_of_two), 3, 48),
    ]
}

/// Two addresses that differ first in one of the six bytes, whatever comes after it: 00 or FF in
/// either. Who is covered is known by how they are made; nothing here compares them.
fn ranges() -> Vec<Notification> {
    let mut found = Vec::new();
    for byte in 0..6 {
        for [after_lower, after_higher] in [[0x00, 0x00], [0x00, 0xFF], [0xFF, 0x00], [0xFF, 0xFF]]
        {
            let [mut lower, mut higher] = [OURS; 2];
            higher[byte] += 1;
            lower[byte + 1..].fill(after_lower);
            higher[byte + 1..].fill(after_higher);
            found.extend(ranges_about(lower, higher));
        }
    }
    found
}

/// Each of two addresses as a device, and the ranges that they are the ends of.
#[rustfmt::skip] // one row per line
fn ranges_about(lower: [u8; 6], higher: [u8; 6]) -> impl Iterator<Item = Notification> {
    let (least, most) = ([0x00; 6], [0xFF; 6]);
    [
        ("B20: below lowest", lower, higher, most, 4),
        ("B20: below highest", lower, least, higher, 3),
        ("B20: below both, which are equal", lower, higher, higher, 4),
        ("B20: the lowest", lower, lower, higher, 3),
        ("B20: the lowest and the highest", lower, lower, lower, 3),
        ("B20: the highest, with lowest above it", lower, higher, lower, 4),
        ("B20: above lowest", higher, lower, most, 3),
        ("B20: above highest", higher, least, lower, 4),
        ("B20: above both, which are equal", higher, lower, lower, 4),
        ("B20: the highest", higher, lower, higher, 3),
        ("B20: the highest and the lowest", higher, higher, higher, 3),
        ("B20: the lowest, with highest below it", higher, higher, lower, 4),
    ]
    .into_iter()
    .map(|(source, device, lowest, highest, number)| Notification {
        source,
        device,
        section: targeted(&range(lowest, highest)),
        answer: (number, if number == 3 { 34 } else { 0 }),
    })
}

#[rustfmt::skip] // one row per line
fn locations() -> Vec<Row> {
    let match_all = one_address([0; 6], [0; 6]);
    let two = [LOCATION, ELSEWHERE].concat();
    vec![
        ("A24: a covering pair without a location", int(&[NONE, NONE, NONE, &match_all, LOCATION]), 3, 38),
        ("A24: every pair has the platform's", int(&[ELSEWHERE, NONE, NONE, NONE, LOCATION]), 3, 16),
        ("A24: the operational loop's comes first", int(&[ELSEWHERE, NONE, LOCATION]), 3, 31),
        ("01: the first of two", int(&[NONE, NONE, &two]), 3, 20),
        ("01: the first covering pair of two", int(&[NONE, NONE, LOCATION, NONE, ELSEWHERE]), 3, 20),
        ("01: not one of a pair that does not cover", int(&[NONE, UNKNOWN, LOCATION, NONE, NONE]), 4, 0),
        ("A28: after another descriptor", int(&[NONE, NONE, &[UNKNOWN, LOCATION].concat()]), 3, 22),
    ]
}
