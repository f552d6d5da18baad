//! The receiver: rows of sections and gap notices, the state handed on.

use second::datagram::stated_length;
use second::generator::datagrams::going_on;
use second::generator::mutated;
use second::generator::rows::{
    any_own_address, any_row, any_settings, any_state, good_state, nearly_continuing,
};
use second::random::Random;
use second::receiver::{room, Answer, Receiver, Run};
use second::row::{whole_runs, Event};
use second::tally::Tally;

use crate::ffi::{self, State};
use crate::memory::{same, Memory};
use crate::numbers;

/// What a receiver starts with, its state also in bytes, and what it is given.
#[derive(Debug)]
pub struct Row {
    start: Receiver,
    state: State,
    events: Vec<Event>,
}

pub fn input(random: &mut Random) -> Row {
    if random.one_in(2) {
        let row = any_row(random);
        return Row {
            start: Receiver::new(row.settings, random.repeated(row.buffer_length)),
            state: State::default(),
            events: row.events,
        };
    }
    let settings = any_settings(random);
    let run = match random.below(3) {
        0 => any_state(random, &settings),
        _ => good_state(random, &settings),
    };
    // READINGS A12: any number but 0 is a 1; B12: what else an idle state has does not matter.
    let state = State {
        run: random.pick(&[0, 0, 1, 2, 255]),
        llc_snap: u8::from(run.llc_snap) * random.pick(&[1, 2, 255]),
        ..numbers::state(Some(run))
    };
    let start = Receiver {
        settings,
        state: (state.run != 0).then_some(run),
        buffer: any_buffer(random, run.filled),
    };
    let mut receiver = start.clone();
    let events = (0..12).map(|_| nearly_right(random, &mut receiver));
    Row {
        start,
        state,
        events: events.collect(),
    }
}

/// What is filled mostly begins as an IP datagram does.
fn any_buffer(random: &mut Random, filled: usize) -> Vec<u8> {
    let length = any_buffer_length(random, filled);
    let held = filled.min(length);
    let mut buffer = going_on(random, &[], held);
    buffer.extend(random.repeated(length - held));
    buffer
}

/// Mostly short; often there is hardly any room after what is filled.
fn any_buffer_length(random: &mut Random, filled: usize) -> usize {
    match random.below(64) {
        0 => random.below(66_001),
        1 => random.between(65_530, 65_540),
        2..=9 => random.below(4),
        10..=25 if filled <= 65_540 => filled + random.below(60),
        _ => random.below(300),
    }
}

/// What nearly goes on with the run that the receiver has open, or opens one, and is given to it.
fn nearly_right(random: &mut Random, receiver: &mut Receiver) -> Event {
    if random.one_in(24) {
        receiver.gap();
        return Event::Gap;
    }
    let limit = receiver.settings.limit.min(255);
    let few = random.below(4);
    let first = Run {
        next: 0,
        last: random.pick(&[few, few, few, limit.saturating_sub(1), limit]),
        filled: 0,
        llc_snap: random.one_in(2),
        address: any_own_address(random, &receiver.settings),
    };
    let run = receiver.state.unwrap_or(first);
    let left = room(receiver.buffer.len()).saturating_sub(run.filled);
    let held = &receiver.buffer[..run.filled.min(receiver.buffer.len())];
    let payload_length = match stated_length(held) {
        Some((_, stated)) if random.one_in(3) => any_last_length(random, stated, held.len()),
        _ => any_payload_length(random, left),
    };
    let payload = if run.llc_snap {
        random.repeated(payload_length)
    } else {
        going_on(random, held, payload_length)
    };
    let mut section = nearly_continuing(random, &receiver.settings, &run, &payload);
    if random.one_in(24) {
        section = mutated(random, section);
    }
    receiver.receive(&section);
    Event::Section(section)
}

/// None, one byte, the most, any; often about as much as there is room for.
fn any_payload_length(random: &mut Random, left: usize) -> usize {
    let length = match random.below(32) {
        0 => 4_080,
        1 => random.below(4_080),
        2..=5 => left + random.below(2),
        6 | 7 => left.saturating_sub(1),
        8..=11 => 0,
        12..=15 => 1,
        _ => random.below(40),
    };
    length.min(4_080)
}

/// About as much as a unit still needs whose header is held.
fn any_last_length(random: &mut Random, stated: usize, filled: usize) -> usize {
    let length = stated + random.pick(&[0, 1, 1, 1, 2]);
    length.saturating_sub(1 + filled).min(4_080)
}

pub fn compare(row: &Row, memory: &mut Memory, tally: &mut Tally) {
    let settings = numbers::settings(&row.start.settings);
    let mut state = row.state;
    let mut buffer = memory.buffer(&row.start.buffer);
    let mut second = row.start.clone();
    for event in &row.events {
        match event {
            Event::Gap => {
                ffi::gap(&mut state);
                second.gap();
            }
            Event::Section(bytes) => {
                let answer = memory.call(bytes, |section| {
                    ffi::receive(&settings, &mut state, section, buffer.lend())
                });
                let Answer { number, length } = second.receive(bytes);
                same("number and length", answer, (number, length));
                tally.count(number);
            }
        }
        same("state", state, numbers::state(second.state));
        buffer.expect(&second.buffer);
    }
    if row.start.state.is_none() && row.start.settings.are_good() {
        compare_whole(row, &second.buffer, memory);
    }
}

/// The wrapper's receiver beside demand 3 told over the whole row, and its buffer in the end.
fn compare_whole(row: &Row, buffer_after: &[u8], memory: &Memory) {
    let settings = &row.start.settings;
    let whole = whole_runs(settings, buffer_after.len(), &row.events);
    let mut buffer = memory.buffer(&row.start.buffer);
    let mut receiver = fossknut::Receiver::new(numbers::settings(settings), buffer.lend());
    for (event, whole) in row.events.iter().zip(&whole) {
        let unit = match event {
            Event::Gap => {
                receiver.gap();
                None
            }
            Event::Section(bytes) => match receiver.receive(bytes) {
                fossknut::Answer::Delivered(unit) => Some(unit),
                _ => None,
            },
        };
        same("unit", unit, whole.as_ref().map(|run| &run.unit[..]));
    }
    buffer.expect(buffer_after);
}

#[test]
fn units_of_every_kind_are_delivered() {
    let mut random = Random::new(1);
    let mut delivered = second::tally::Delivered::default();
    for _ in 0..10_000 {
        let Row { start, events, .. } = input(&mut random);
        let mut receiver = start;
        for event in &events {
            match event {
                Event::Gap => receiver.gap(),
                Event::Section(bytes) => {
                    let before = receiver.state;
                    let answer = receiver.receive(bytes);
                    delivered.count(before, bytes, answer);
                }
            }
        }
    }
    delivered.assert_each(1_000);
}
