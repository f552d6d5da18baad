//! The check, 12 to 19 and 24.

use fossknut::Refusal;
use second::generator::notifications::any_notification;
use second::generator::{any_sound, faulty, mutated, CHECKS};
use second::random::Random;
use second::tally::Tally;

use crate::memory::{same, Memory};

pub fn input(random: &mut Random) -> Vec<u8> {
    let sound = any_sound(random);
    match random.below(8) {
        0 => random.bytes(sound.len()),
        1 => any_notification(random).1,
        2 | 3 => {
            let faults = random.some(&CHECKS, 8);
            faulty(random, &faults)
        }
        4 => sound,
        _ => mutated(random, sound),
    }
}

pub fn compare(section: &Vec<u8>, memory: &mut Memory, tally: &mut Tally) {
    let checked = memory.call(section, fossknut::check);
    let number = checked.map_or_else(Refusal::number, |()| 0);
    same("number", number, second::check(section));
    tally.count(number);
}
