//! The INT reader.

use fossknut::notification::{read, Refusal};
use second::generator::mutated;
use second::generator::notifications::{
    any_notification, bytes_changed, descriptor, faulty, with_loops, CHECKS,
};
use second::notification::Answer;
use second::random::Random;
use second::tally::Tally;

use crate::ffi;
use crate::memory::{same, Memory};

/// A device and a section.
type Input = ([u8; 6], Vec<u8>);

pub fn input(random: &mut Random) -> Input {
    let (device, section) = any_notification(random);
    match random.below(10) {
        0 => (device, random.bytes(section.len())),
        1 => bytes_changed(random),
        2 | 3 => {
            let faults = random.some(&CHECKS, 8);
            faulty(random, &faults)
        }
        4 => (device, any_loops(random)),
        5 => (any_notification(random).0, section),
        6..=8 => (device, section),
        _ => (device, mutated(random, section)),
    }
}

/// Descriptors of any tag, and of lengths about those of the known ones, in a few loops.
fn any_loops(random: &mut Random) -> Vec<u8> {
    let mut loops = vec![Vec::new(); random.between(1, 6)];
    for descriptors in &mut loops {
        for _ in 0..random.below(3) {
            let (any_tag, any_length) = (random.byte(), random.below(26));
            let tag = random.pick(&[0x07, 0x0E, 0x13, 0x13, any_tag]);
            let length = random.pick(&[0, 6, 9, 9, 12, 18, 24, any_length]);
            descriptors.extend(descriptor(tag, &random.bytes(length)));
        }
    }
    with_loops(&loops)
}

pub fn compare((device, section): &Input, memory: &mut Memory, tally: &mut Tally) {
    let answer = memory.call(section, |section| ffi::notification(*device, section));
    let Answer { number, offset } = second::notification::read(*device, section);
    same("number and offset", answer, (number, offset));
    let wrapped = read(*device, section).map_err(Refusal::number);
    let wrapped = wrapped.map(|found| found.map(|nine| nine.bytes().as_ptr_range()));
    let expected = match number {
        3 => Ok(Some(section[offset..offset + 9].as_ptr_range())),
        4 => Ok(None),
        _ => Err(number),
    };
    same("answer of the wrapper", wrapped, expected);
    tally.count(number);
}
