//! The PES data packet reader.

use fossknut::pes::{self, Packet, Refusal};
use second::random::Random;
use second::tally::Tally;

use crate::memory::{same, Memory};
use crate::{ffi, numbers};

pub fn input(random: &mut Random) -> Vec<u8> {
    let length = match random.below(200) {
        0 => random.between(65_533, 65_538),
        1 => random.below(70_000),
        2..=20 => random.below(300),
        _ => random.below(21),
    };
    let mut packet = random.repeated(length);
    if let Some(identifier) = packet.first_mut() {
        *identifier = random.pick(&[0x21, 0x21, 0x22, 0x22, 0x20, 0x23, *identifier]);
    }
    packet
}

pub fn compare(packet: &Vec<u8>, memory: &mut Memory, tally: &mut Tally) {
    let answer = memory.call(packet, ffi::pes);
    let second = second::pes::read(packet);
    same("answer", answer, numbers::pes(&second));
    let expected = second.map(|second| Packet {
        extension: second.extension,
        rate: second.rate,
        data: &packet[second.data],
    });
    let wrapped = pes::read(packet).map_err(Refusal::number);
    same("answer of the wrapper", wrapped, expected);
    tally.count(answer.0);
}
