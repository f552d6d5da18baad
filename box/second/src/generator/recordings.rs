//! Recordings and units for the programs, the same in every run.

use super::datagrams::{any_datagram, any_unit, bare_ipv4, ipv4_of_length, ipv6_of_length};
use super::notifications::{any_notification, filler, with_loops};
use super::rows::{any_run, disturbed_runs};
use super::{
    any_sound, faulty, in_checksum_form, seal, set_section_length, sound, with_byte,
    with_damaged_bit, with_llc_snap, OURS,
};
use crate::listing::SETTINGS;
use crate::random::Random;
use crate::recording::{offers, LISTING_OF_01};
use crate::sender::send;

/// The recordings' names. Beside these there is `cut-N`, a recording that stops at any of its bytes,
/// N; and units of N bytes: `bytes-N` of any value, `datagram-N` an IPv4 datagram, `datagram6-N` an
/// IPv6 datagram.
pub const NAMES: [&str; 13] = [
    "empty",
    "papers",
    "every-answer",
    "clean",
    "damaged",
    "lengths-lying",
    "garbage",
    "other-tables",
    "sixteen-sections",
    "longest-offers",
    "stuffed",
    "night",
    "megabytes",
];

/// How long the recording is that `cut-N` cuts.
pub fn uncut_length() -> usize {
    uncut().len()
}

/// The recording or unit that has this name.
pub fn named(name: &str) -> Option<Vec<u8>> {
    let seed = name
        .bytes()
        .fold(0, |seed, byte| seed << 5 ^ u64::from(byte));
    let random = &mut Random::new(seed);
    if let Some(length) = number_after(name, "cut-") {
        return uncut().get(..length).map(<[u8]>::to_vec);
    }
    if let Some(length) = number_after(name, "bytes-") {
        return Some(random.bytes(length));
    }
    if let Some(length) = number_after(name, "datagram-") {
        return ipv4_of_length(random, length);
    }
    if let Some(length) = number_after(name, "datagram6-") {
        return ipv6_of_length(random, length);
    }
    Some(match name {
        "empty" => Vec::new(),
        "papers" => LISTING_OF_01.to_vec(),
        "every-answer" => every_answer(),
        "clean" => clean(random, 300),
        "damaged" => damaged(random),
        "lengths-lying" => lengths_lying(random),
        "garbage" => random.bytes(300_000),
        "other-tables" => other_tables(random),
        "sixteen-sections" => sixteen_sections(random),
        "longest-offers" => longest_offers(random),
        "stuffed" => stuffed(random),
        "night" => night(random, 2_000),
        "megabytes" => [clean(random, 3_000), night(random, 10_000)].concat(),
        _ => return None,
    })
}

fn number_after(name: &str, prefix: &str) -> Option<usize> {
    name.strip_prefix(prefix)?.parse().ok()
}

/// A unit in two sections, with one for another address between them, and one that is too short.
fn uncut() -> Vec<u8> {
    let unit = bare_ipv4(20);
    [
        &sound(OURS, 0, 1, &unit[..17])[..],
        &sound([0; 6], 0, 0, b"others")[..],
        &sound(OURS, 1, 1, &unit[17..]),
        &[0x3E, 0xB0, 0x05, 0x30, 0x20, 0xC1, 0x00, 0x00],
    ]
    .concat()
}

/// Sections on which a listing answers 0, 1, 2, 12 to 22, 24 and 25, in another order.
fn every_answer() -> Vec<u8> {
    let alone = sound(OURS, 0, 0, &bare_ipv4(20));
    [
        &alone[..],
        &sound(OURS, 0, 15, b"Foss"),
        &with_byte(&sound([0; 6], 0, 255, b"others"), 5, 0xF1),
        &sound(OURS, 1, 15, b"knut"),
        &sound(OURS, 3, 15, b"22"),
        &sound(OURS, 0, 0, b"25"),
        &with_byte(&alone, 0, 0x4C),
        &with_byte(&alone, 1, 0xF0),
        &in_checksum_form(&alone, [0; 4]),
        &with_damaged_bit(&alone),
        &with_byte(&alone, 5, 0xC0),
        &with_byte(&alone, 6, 1),
        &with_byte(&alone, 5, 0xC5),
        &with_byte(&alone, 5, 0xD1),
        &sound(OURS, 0, 16, b"21"),
        &[0x3E, 0xB0, 0x05, 0x30, 0x20, 0xC1, 0x00, 0x00],
        &alone[..19],
    ]
    .concat()
}

/// Units of many lengths as our sender cuts them, some with others' sections between.
fn clean(random: &mut Random, units: usize) -> Vec<u8> {
    let mut recording = Vec::new();
    let mut sections = vec![0; 70_000];
    for _ in 0..units {
        let piece_size = random.pick(&[4_080, 4_079, 1_008, 100, 16]);
        let pieces = random.pick(&[1, 1, 1, 2, 16]);
        let length = random.between(0, piece_size * pieces);
        let llc_snap = random.one_in(2);
        let unit = any_unit(random, llc_snap, length);
        let answer = send(&SETTINGS, llc_snap, Some(piece_size), &unit, &mut sections);
        recording.extend(&sections[..answer.length]);
        if random.one_in(3) {
            recording.extend(any_sound(random));
        }
    }
    recording
}

/// The same with a bit of some sections received wrong, and at the end also of those bits that say
/// where the next section is.
fn damaged(random: &mut Random) -> Vec<u8> {
    let mut recording = clean(random, 300);
    let sections: Vec<_> = offers(&recording)
        .map(|(offset, section)| (offset, section.len()))
        .collect();
    let lost = sections.len() * 9 / 10;
    for (number, (offset, length)) in sections.into_iter().enumerate() {
        if random.one_in(10) {
            let first = if number < lost { 3 } else { 0 };
            let place = offset + random.between(first, length - 1);
            recording[place] ^= 1 << random.below(8);
        }
    }
    recording
}

/// Sections that are longer or shorter than they were, as their section_length says, and at the end
/// some whose section_length is off.
fn lengths_lying(random: &mut Random) -> Vec<u8> {
    let mut recording = Vec::new();
    for _ in 0..1_000 {
        let mut section = any_run(random, &SETTINGS).swap_remove(0);
        if random.one_in(3) {
            let length = random.pick(&[3, 15, 16, 17, section.len() + 1, 4_096, 4_097, 4_098]);
            section.resize(length, 0);
            set_section_length(&mut section, length - 3);
        }
        recording.extend(section);
    }
    for _ in 0..50 {
        let mut section = any_sound(random);
        let lie = section.len() + random.pick(&[0, 1, 300, 4_090, 4_091]);
        set_section_length(&mut section, lie);
        seal(&mut section);
        recording.extend(section);
    }
    recording
}

/// Program association and INT sections, and datagram sections with other table_ids, between ours.
fn other_tables(random: &mut Random) -> Vec<u8> {
    let mut recording = Vec::new();
    for _ in 0..1_000 {
        let section = match random.below(5) {
            0 => b"\x00\xB0\x0D\x00\x01\xC1\x00\x00\x00\x01\xF0\x00\x2A\xB1\x04\xB2".to_vec(),
            1 => any_notification(random).1,
            2 => faulty(random, &[13]),
            _ => any_run(random, &SETTINGS).concat(),
        };
        recording.extend(section);
    }
    recording
}

/// Units of 15, 16 and 17 sections, and the longest. Those without a byte have the flag, and so have
/// some others.
fn sixteen_sections(random: &mut Random) -> Vec<u8> {
    let mut recording = Vec::new();
    for _ in 0..30 {
        let last: u8 = random.pick(&[14, 15, 15, 15, 16]);
        let payload_length = random.pick(&[0, 10, 4_080]);
        let llc_snap = payload_length == 0 || random.one_in(3);
        let joined_length = payload_length * (usize::from(last) + 1);
        let mut joined = any_unit(random, llc_snap, joined_length.min(65_535));
        joined.resize(joined_length, 0xFF);
        for number in 0..=last {
            let payload = &joined[payload_length * usize::from(number)..][..payload_length];
            let section = sound(OURS, number, last, payload);
            recording.extend(if llc_snap {
                with_llc_snap(&section)
            } else {
                section
            });
        }
    }
    recording
}

/// Datagrams as an uplink sends them that uses stuffing: none, one byte, some, sections of it. Seldom
/// one bit of what a header states is wrong.
fn stuffed(random: &mut Random) -> Vec<u8> {
    let mut recording = Vec::new();
    for _ in 0..1_000 {
        let length = random.between(20, 200);
        let mut joined = any_datagram(random, length);
        let few = random.below(20);
        let stuffing = random.pick(&[0, 0, 1, few, few, 400]);
        joined.resize(length + stuffing, 0xFF);
        if random.one_in(6) {
            joined[random.below(6)] ^= 1 << random.below(8);
        }
        recording.extend(cut_anywhere(random, &joined));
    }
    recording
}

/// Sections for us that carry these payloads, cut at any byte, and often inside the header; where two
/// cuts meet, a section is empty.
fn cut_anywhere(random: &mut Random, joined: &[u8]) -> Vec<u8> {
    let mut ends = vec![joined.len()];
    for _ in 0..random.below(6) {
        let header = joined.len().min(40);
        let end = random.pick(&[header, header, joined.len()]);
        ends.push(random.between(0, end));
    }
    ends.sort_unstable();
    let last = (ends.len() - 1) as u8;
    let mut start = 0;
    let mut sections = Vec::new();
    for (number, end) in (0..=last).zip(ends) {
        sections.extend(sound(OURS, number, last, &joined[start..end]));
        start = end;
    }
    sections
}

/// Offers of 4,096, 4,097 and 4,098 bytes, of any table, and an end inside one.
fn longest_offers(random: &mut Random) -> Vec<u8> {
    let mut recording = Vec::new();
    for _ in 0..60 {
        let payload_length = random.between(4_078, 4_082);
        let offer = match random.below(3) {
            0 => sound(OURS, 0, 0, &any_datagram(random, payload_length)),
            1 => with_loops(&[filler(random, payload_length - 2)]),
            _ => [&[0xFF; 3][..], &random.bytes(4_095)].concat(),
        };
        recording.extend(offer);
    }
    recording.extend([0xFF; 4_097]);
    recording
}

/// Runs with sections lost, doubled, swapped, damaged, and of others.
fn night(random: &mut Random, rows: usize) -> Vec<u8> {
    (0..rows)
        .flat_map(|_| disturbed_runs(random, &SETTINGS).concat())
        .collect()
}
