//! CRC_32, bit by bit in the second program.

use second::random::Random;
use second::tally::Tally;

use crate::memory::{same, Memory};

pub fn input(random: &mut Random) -> Vec<u8> {
    let length = match random.below(200) {
        0 => random.below(70_001),
        1..=9 => random.below(5_000),
        _ => random.below(301),
    };
    random.bytes(length)
}

pub fn compare(bytes: &Vec<u8>, memory: &mut Memory, tally: &mut Tally) {
    let crc_32 = memory.call(bytes, fossknut::crc_32);
    same("CRC_32", crc_32, second::crc_32(bytes));
    tally.count(0);
}
