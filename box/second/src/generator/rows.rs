//! Rows of events as a bad night makes them: sections lost, doubled, swapped, damaged, others' between
//! ours, and those of sisters mixed.
//!
//! Sisters are addresses that are the same where they are compared, and differ elsewhere: a receiver
//! with a range below 6 takes the sections of all of them (02, request 5).

use super::datagrams::going_on;
use super::{faulty, seal, set_address, set_indicators, sound, CHECKS, CHECKSUM_FORM};
use crate::random::Random;
use crate::receiver::{Run, Settings};
use crate::row::Event;
use crate::section::SHORTEST;

/// A receiver that starts idle, and what it is given.
#[derive(Clone, Debug)]
pub struct Row {
    /// The receiver's settings: good ones.
    pub settings: Settings,
    /// Its buffer's length.
    pub buffer_length: usize,
    /// What it is given.
    pub events: Vec<Event>,
}

/// A row of some runs, by settings under which most of them can be received.
pub fn any_row(random: &mut Random) -> Row {
    let settings = good_settings(random);
    let sections = disturbed_runs(random, &settings);
    Row {
        settings,
        buffer_length: any_buffer_length(random),
        events: events(random, sections),
    }
}

/// The sections of some runs, disturbed.
pub fn disturbed_runs(random: &mut Random, settings: &Settings) -> Vec<Vec<u8>> {
    let mut sections = Vec::new();
    for _ in 0..random.between(1, 5) {
        sections.extend(if random.one_in(4) {
            mixed_sisters(random, settings)
        } else {
            any_run(random, settings)
        });
    }
    disturb(random, settings, &mut sections);
    sections
}

/// Any address; all ranges; small limits more often.
pub fn good_settings(random: &mut Random) -> Settings {
    let limit = match random.below(8) {
        0 => 255,
        1 => random.between(1, 255),
        _ => random.between(2, 8),
    };
    let mut address = [0; 6];
    address.copy_from_slice(&random.bytes(6));
    Settings {
        address,
        range: random.between(1, 6),
        limit,
    }
}

fn any_buffer_length(random: &mut Random) -> usize {
    match random.below(64) {
        0 => random.between(65_530, 65_540),
        1..=16 => random.between(0, 40),
        _ => random.between(40, 200),
    }
}

/// The sections of one unit, in order.
pub fn any_run(random: &mut Random, settings: &Settings) -> Vec<Vec<u8>> {
    let address = any_address(random, settings);
    let last = any_last_section_number(random, settings);
    let llc_snap = random.one_in(2);
    run_of(random, address, last, llc_snap)
}

/// A few sections more often than many, and seldom one too many.
fn any_last_section_number(random: &mut Random, settings: &Settings) -> u8 {
    let most = settings.limit.min(6) - 1;
    let last = match random.below(64) {
        0 => random.below(256),
        1 => settings.limit.min(255),
        _ => random.between(0, most),
    };
    last as u8
}

/// The sections of one unit for that address, in order: of many the first 41. With the flag the unit
/// has any bytes, and without it mostly begins with an IP datagram, whose header any section may cut.
fn run_of(random: &mut Random, address: [u8; 6], last: u8, llc_snap: bool) -> Vec<Vec<u8>> {
    let lengths = any_payload_lengths(random, usize::from(last) + 1);
    let joined_length = lengths.iter().sum();
    let joined = if llc_snap {
        random.bytes(joined_length)
    } else {
        going_on(random, &[], joined_length)
    };
    let mut rest = &joined[..];
    let mut sections = Vec::new();
    for (number, length) in (0..=last.min(40)).zip(lengths) {
        let (payload, after) = rest.split_at(length);
        let mut section = sound(address, number, last, payload);
        section[5] |= u8::from(llc_snap) << 1;
        if random.one_in(60) {
            section[5] |= (random.between(1, 3) as u8) << 4; // payload scrambling
        }
        seal(&mut section);
        sections.push(section);
        rest = after;
    }
    sections
}

/// Mostly few bytes a section, and often none; together mostly enough for an IP header.
fn any_payload_lengths(random: &mut Random, sections: usize) -> Vec<usize> {
    let longest = if random.one_in(500) { 4_080 } else { 20 };
    let any_length = |_| match random.below(6) {
        0 => 0,
        _ => random.between(0, longest),
    };
    let mut lengths: Vec<usize> = (0..sections).map(any_length).collect();
    let is_short = lengths.iter().sum::<usize>() < 40;
    if is_short && !random.one_in(8) {
        lengths[random.below(sections)] += random.between(20, 40);
    }
    lengths
}

/// The sections of a unit each for two or three sisters, mixed so that each one's keep their order.
/// The units mostly have one last number and flag: then nothing but the address tells them apart.
fn mixed_sisters(random: &mut Random, settings: &Settings) -> Vec<Vec<u8>> {
    let last = any_last_section_number(random, settings);
    let llc_snap = random.one_in(2);
    let mut runs = vec![run_of(random, settings.address, last, llc_snap)];
    for _ in 0..random.between(1, 2) {
        let address = sister(random, settings);
        let (last, llc_snap) = match random.below(4) {
            0 => (any_last_section_number(random, settings), random.one_in(2)),
            _ => (last, llc_snap),
        };
        runs.push(run_of(random, address, last, llc_snap));
    }
    let mut mixed = Vec::new();
    while !runs.is_empty() {
        let one = random.below(runs.len());
        mixed.push(runs[one].remove(0));
        runs.retain(|run| !run.is_empty());
    }
    mixed
}

/// Mostly ours; else other in one byte, which may be one that is not compared.
fn any_address(random: &mut Random, settings: &Settings) -> [u8; 6] {
    let mut address = settings.address;
    if random.one_in(4) {
        address[random.below(6)] ^= 1 << random.below(8);
    }
    address
}

/// Other than ours in one byte that is not compared, most often the one next to those that are; ours
/// where there is none.
fn sister(random: &mut Random, settings: &Settings) -> [u8; 6] {
    let mut address = settings.address;
    let free = 6_usize.saturating_sub(settings.range);
    if free > 0 {
        let place = random.below(free);
        address[random.pick(&[place, free - 1])] ^= 1 << random.below(8);
    }
    address
}

/// Some sections lost, doubled or swapped, some of another run, some with another number or flag or a
/// sister's address, some in the checksum form.
fn disturb(random: &mut Random, settings: &Settings, sections: &mut Vec<Vec<u8>>) {
    for _ in 0..random.below(4) {
        let count = sections.len();
        if count == 0 {
            return;
        }
        let (one, other) = (random.below(count), random.below(count));
        match random.below(10) {
            0 => drop(sections.remove(one)),
            1 => sections.insert(one, sections[one].clone()),
            2 => sections.swap(one, other),
            3 => sections.insert(one, sections[other].clone()),
            4 => damage(random, &mut sections[one]),
            5 => change_and_seal(&mut sections[one], |section| section[5] ^= 2),
            6 => change_and_seal(&mut sections[one], |section| section[7] = random.byte()),
            7 => change_and_seal(&mut sections[one], |section| {
                set_indicators(section, CHECKSUM_FORM);
            }),
            8 => change_and_seal(&mut sections[one], |section| {
                set_address(section, sister(random, settings));
            }),
            _ => {
                let fault = random.pick(&CHECKS);
                sections.insert(one, faulty(random, &[fault]));
            }
        }
    }
}

fn damage(random: &mut Random, section: &mut [u8]) {
    if !section.is_empty() {
        section[random.below(section.len())] ^= 1 << random.below(8);
    }
}

fn change_and_seal(section: &mut [u8], change: impl FnOnce(&mut [u8])) {
    if section.len() >= SHORTEST {
        change(section);
        seal(section);
    }
}

/// The sections with gap notices and sound sections for anyone between them.
fn events(random: &mut Random, sections: Vec<Vec<u8>>) -> Vec<Event> {
    let mut events = Vec::new();
    for section in sections {
        if random.one_in(20) {
            events.push(Event::Gap);
        }
        if random.one_in(8) {
            events.push(Event::Section(faulty(random, &[])));
        }
        events.push(Event::Section(section));
    }
    events
}

/// Seldom such as 10 refuses.
pub fn any_settings(random: &mut Random) -> Settings {
    match random.below(16) {
        0 => bad_settings(random),
        _ => good_settings(random),
    }
}

/// Settings that 10 refuses: out of range, and such that only their low bits are good.
pub fn bad_settings(random: &mut Random) -> Settings {
    let good = good_settings(random);
    let range = random.pick(&[0, 7, 255, 256, 257, 262, 1 << 32 | 6, usize::MAX]);
    let limit = random.pick(&[0, 256, 257, 272, 65_552, 1 << 32 | 16, usize::MAX]);
    match random.below(3) {
        0 => Settings { range, ..good },
        1 => Settings { limit, ..good },
        _ => Settings {
            range,
            limit,
            ..good
        },
    }
}

/// An open state of any value that the library's sixteen bytes can have, two of them for each number
/// and four for what is filled: at the edges of a good one, beyond them, or good in its low bits.
pub fn any_state(random: &mut Random, settings: &Settings) -> Run {
    let mut number = |edges: &[usize], wide: &[usize]| match random.below(8) {
        0 => random.pick(wide) | random.pick(edges),
        1 | 2 => random.below(260),
        _ => random.pick(edges),
    };
    let two_bytes = [1 << 8, 1 << 15, 0xFF00];
    let next = number(&[0, 1, 2, 3, 16, 17, 254, 255], &two_bytes);
    let last = number(&[0, 1, 2, 3, 16, 17, 200, 254, 255], &two_bytes);
    let edge = 4_080 * next;
    let filled = number(
        &[0, 1, 50, edge, edge + 1, 65_535, 65_536],
        &[1 << 16, 1 << 24, 0xFFFF_0000],
    );
    Run {
        next,
        last,
        filled,
        llc_snap: random.one_in(2),
        address: any_kept_address(random, settings),
    }
}

/// An open state that is good: often with few sections to come, or with as much filled as can be.
pub fn good_state(random: &mut Random, settings: &Settings) -> Run {
    let few = random.between(1, 4);
    let many = random.between(1, 254);
    let next = random.pick(&[few, few, many]);
    let most = 65_535.min(4_080 * next);
    let less = random.below(most.min(300));
    Run {
        next,
        last: 254.min(next + random.below(3)),
        filled: random.pick(&[less, less, most, most - less]),
        llc_snap: random.one_in(2),
        address: any_own_address(random, settings),
    }
}

/// Ours or a sister's.
pub fn any_own_address(random: &mut Random, settings: &Settings) -> [u8; 6] {
    if random.one_in(2) {
        sister(random, settings)
    } else {
        settings.address
    }
}

/// The address of a state that may be bad: seldom other than ours in a byte that may be compared.
fn any_kept_address(random: &mut Random, settings: &Settings) -> [u8; 6] {
    let mut address = any_own_address(random, settings);
    if random.one_in(8) {
        address[random.below(6)] ^= 1 << random.below(8);
    }
    address
}

/// A section that goes on with the run, or nearly, with this payload.
pub fn nearly_continuing(
    random: &mut Random,
    settings: &Settings,
    run: &Run,
    payload: &[u8],
) -> Vec<u8> {
    let mut address = run.address;
    match random.below(16) {
        0 => address[random.below(6)] ^= 1 << random.below(8),
        1 => address = any_own_address(random, settings),
        _ => {}
    }
    let mut section = sound(address, run.next as u8, run.last as u8, payload);
    section[5] |= u8::from(run.llc_snap) << 1;
    match random.below(16) {
        0 => section[5] ^= 2,
        1 => section[5] ^= 0x10,
        2 => section[6] = 0,
        3 => section[7] = section[6],
        4 => section[6] = section[6].wrapping_add(1),
        5 => set_indicators(&mut section, random.pick(&[0b00, CHECKSUM_FORM, 0b11])),
        6 => {
            let fault = random.pick(&CHECKS);
            return faulty(random, &[fault]);
        }
        _ => {}
    }
    seal(&mut section);
    section
}

#[cfg(test)]
mod tests {
    use super::*;
    use crate::receiver::Receiver;
    use crate::tally::{Delivered, Tally};

    #[test]
    fn rows_reach_every_answer() {
        let mut random = Random::new(1);
        let (mut tally, mut delivered) = (Tally::default(), Delivered::default());
        for _ in 0..20_000 {
            let row = any_row(&mut random);
            let mut receiver = Receiver::new(row.settings, vec![0; row.buffer_length]);
            for event in &row.events {
                match event {
                    Event::Gap => receiver.gap(),
                    Event::Section(bytes) => {
                        let before = receiver.state;
                        let answer = receiver.receive(bytes);
                        tally.count(answer.number);
                        delivered.count(before, bytes, answer);
                    }
                }
            }
        }
        tally.assert_all((0..=2).chain(12..=24), 200);
        tally.assert_all([25], 2_000);
        delivered.assert_each(2_000);
    }
}
