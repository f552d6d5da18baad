//! The sender, by any piece size and by its own, and the way back through the receiver.

use fossknut::Answer;
use second::datagram::IPV4_HEADER;
use second::generator::datagrams::{any_datagram, going_on};
use second::generator::rows::any_settings;
use second::random::Random;
use second::receiver::Settings;
use second::recording::offers;
use second::sender::{send, DEFAULT_PIECE_SIZE, LARGEST_PIECE_SIZE};
use second::tally::Tally;

use crate::ffi;
use crate::memory::{same, Memory};
use crate::numbers;

/// What a sender is given; `output` is the buffer before.
#[derive(Debug)]
pub struct Sending {
    settings: Settings,
    llc_snap: u8,
    piece_size: Option<usize>,
    unit: Vec<u8>,
    output: Vec<u8>,
}

pub fn input(random: &mut Random) -> Sending {
    let piece_size = match random.below(8) {
        0 => random.pick(&[0, 4_081, 4_096, 65_537, 1 << 32 | 16, usize::MAX]),
        1 => random.pick(&[1, 2, 1_008, 4_079, 4_080]),
        2 => random.between(1, 4_080),
        _ => random.between(1, 200),
    };
    any_sending(random, Some(piece_size))
}

pub fn input_by_default(random: &mut Random) -> Sending {
    any_sending(random, None)
}

fn any_sending(random: &mut Random, piece_size: Option<usize>) -> Sending {
    let settings = any_settings(random);
    let size = piece_size.unwrap_or(DEFAULT_PIECE_SIZE);
    let size = size.clamp(1, LARGEST_PIECE_SIZE);
    let unit_length = any_unit_length(random, size, settings.limit.min(256));
    let exact = unit_length + 16 * ((unit_length + size - 1) / size).max(1);
    let output_length = match random.below(8) {
        0 => random.below(exact),
        1 | 2 => exact - 1,
        3 | 4 => exact + random.between(1, 100),
        _ => exact,
    };
    let llc_snap = random.pick(&[0, 0, 0, 1, 2, 255]);
    Sending {
        settings,
        llc_snap,
        piece_size,
        unit: any_unit(random, llc_snap != 0, unit_length),
        output: random.repeated(output_length),
    }
}

/// With the flag any bytes; without it mostly a datagram, where there can be one, and else nearly one.
fn any_unit(random: &mut Random, llc_snap: bool, length: usize) -> Vec<u8> {
    if llc_snap {
        random.repeated(length)
    } else if !(IPV4_HEADER..=65_535).contains(&length) || random.one_in(4) {
        going_on(random, &[], length)
    } else {
        any_datagram(random, length)
    }
}

/// Around a few pieces, around as many as the limit, around the longest unit, or none.
fn any_unit_length(random: &mut Random, size: usize, limit: usize) -> usize {
    let pieces = random.below(4);
    let length = match random.below(32) {
        0 => random.between(65_533, 65_538),
        1 => random.below(66_000),
        2 | 3 => 0,
        4..=7 => size * limit + random.below(3),
        _ => size * pieces + random.below(3),
    };
    length.saturating_sub(1).min(66_000)
}

pub fn compare(sending: &Sending, memory: &mut Memory, tally: &mut Tally) {
    let Sending { settings, unit, .. } = sending;
    let (llc_snap, piece_size) = (sending.llc_snap, sending.piece_size);
    let mut expected = sending.output.clone();
    let second = send(settings, llc_snap != 0, piece_size, unit, &mut expected);
    let settings = numbers::settings(settings);
    let mut output = memory.buffer(&sending.output);
    let answer = memory.call(unit, |unit| match (llc_snap, piece_size) {
        // The wrapper gives no other flags.
        (0 | 1, _) => fossknut::send(&settings, llc_snap == 1, piece_size, unit, output.lend())
            .map_or_else(|refusal| (refusal.number(), 0), |length| (0, length)),
        (_, Some(size)) => ffi::send(&settings, llc_snap, size, unit, output.lend()),
        (_, None) => ffi::send_by_default(&settings, llc_snap, unit, output.lend()),
    });
    same("number and length", answer, (second.number, second.length));
    output.expect(&expected);
    if second.number == 0 {
        expect_back(settings, unit, &expected[..second.length], memory);
    }
    tally.count(second.number);
}

/// A fresh receiver with just the room stores each section but the last, and then has the unit.
fn expect_back(settings: fossknut::Settings, unit: &[u8], sections: &[u8], memory: &Memory) {
    let mut buffer = memory.buffer(&vec![0; unit.len()]);
    let mut receiver = fossknut::Receiver::new(settings, buffer.lend());
    let mut left = offers(sections).count();
    for (_, section) in offers(sections) {
        left -= 1;
        let expected = match left {
            0 => Answer::Delivered(unit),
            _ => Answer::Stored,
        };
        same("way back", receiver.receive(section), expected);
    }
    buffer.expect(unit);
}
