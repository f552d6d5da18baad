//! Rows for the receiver.

use super::unit_end;
use crate::generator::datagrams::bare_ipv4;
use crate::generator::{in_checksum_form, sound, with_byte, with_damaged_bit, with_llc_snap, OURS};
use crate::listing::SETTINGS;
use crate::receiver::{Receiver, Run, Settings};
use crate::row::Event::{self, Gap, Section};

/// A receiver, what it is given, and what it has to answer.
pub struct Row {
    /// Where in the papers it comes from.
    pub source: String,
    /// Its settings.
    pub settings: Settings,
    /// Its state at the start.
    pub state: Option<Run>,
    /// What its buffer begins with at the start; the rest may be anything.
    pub held: Vec<u8>,
    /// Its buffer's length.
    pub buffer_length: usize,
    /// What it is given.
    pub events: Vec<Event>,
    /// Number and length for each section; a gap notice gets no answer.
    pub answers: Vec<(u8, usize)>,
    /// What its buffer has to begin with in the end; empty where the row is not about that.
    pub left: Vec<u8>,
}

impl Row {
    /// The receiver at the start, with `rest` in its buffer after what is held.
    pub fn receiver(&self, rest: u8) -> Receiver {
        let mut buffer = self.held.clone();
        buffer.resize(self.buffer_length, rest);
        Receiver {
            settings: self.settings,
            state: self.state,
            buffer,
        }
    }
}

/// All of them.
pub fn rows() -> Vec<Row> {
    let mut rows = samples_of_01();
    rows.extend(continuations());
    rows.extend(passing_by());
    rows.extend(both_forms());
    rows.extend(states());
    rows.extend(first_sections());
    rows.extend(two_sub_addresses());
    rows.extend(sisters_of_every_range());
    rows.extend(kept_addresses());
    rows.extend(unit_end::rows());
    rows
}

const ANOTHER: [u8; 6] = [2, 0, 0, 0, 0, 1];

/// The listing's settings, idle, and a buffer of 65,535.
pub(super) fn row(source: impl Into<String>, events: Vec<Event>, answers: &[(u8, usize)]) -> Row {
    Row {
        source: source.into(),
        settings: SETTINGS,
        state: None,
        held: Vec::new(),
        buffer_length: 65_535,
        events,
        answers: answers.to_vec(),
        left: Vec::new(),
    }
}

/// The joined payloads as a run for us without LLC/SNAP, by sections whose payloads have these lengths.
pub(super) fn cut(joined: &[u8], lengths: &[usize]) -> Vec<Event> {
    let last = lengths.len() as u8 - 1;
    let mut rest = joined;
    let mut events = Vec::new();
    for (number, &length) in (0..=last).zip(lengths) {
        let (payload, after) = rest.split_at(length);
        events.push(Section(sound(OURS, number, last, payload)));
        rest = after;
    }
    assert!(rest.is_empty(), "the payloads are all of it");
    events
}

/// `event` as another section, unless it is a gap notice.
pub(super) fn changed(event: &Event, change: impl Fn(&[u8]) -> Vec<u8>) -> Event {
    match event {
        Section(bytes) => Section(change(bytes)),
        Gap => Gap,
    }
}

/// A sound section for us with that many bytes 55 as payload, with which no datagram begins.
pub(super) fn ours(section_number: u8, last_section_number: u8, payload_length: usize) -> Event {
    let payload = vec![0x55; payload_length];
    Section(sound(OURS, section_number, last_section_number, &payload))
}

fn others(last_section_number: u8, byte_5: u8) -> Event {
    let section = sound(ANOTHER, 0, last_section_number, b"others");
    Section(with_byte(&section, 5, byte_5))
}

fn damaged(event: &Event) -> Event {
    changed(event, with_damaged_bit)
}

/// The shortest unit that there is without LLC/SNAP, in one section.
fn alone() -> Event {
    cut(&bare_ipv4(20), &[20]).remove(0)
}

/// Payload lengths 17 and 3: the shortest unit in two sections.
fn pair() -> [Event; 2] {
    [of_two(OURS, 0), of_two(OURS, 1)]
}

/// What comes between two sections of one run, whose unit has 20 bytes.
fn between(event: Event) -> Vec<Event> {
    let [first, last] = pair();
    vec![first, event, last]
}

/// Payload lengths 17, 0, 3 in one run, where 01 has 4, 0, 3: no header has fewer than 20 bytes.
fn unit_of_20() -> Vec<Event> {
    cut(&bare_ipv4(20), &[17, 0, 3])
}

#[rustfmt::skip] // one row per line
fn samples_of_01() -> Vec<Row> {
    let unit = unit_of_20();
    let repeated = [0, 1, 1].map(|number: usize| unit[number].clone()).to_vec();
    let [first, last] = pair();
    let longer = cut(&bare_ipv4(24), &[17, 7]);
    let halves = vec![first.clone(), damaged(&last), damaged(&longer[0]), longer[1].clone()];
    let delivered = [(1, 0), (1, 0), (0, 20)];
    vec![
        row("01: payload lengths 17, 0, 3", unit.clone(), &delivered),
        row("01: numbers 0, 1, 1 with L = 2", repeated, &[(1, 0), (1, 0), (22, 0)]),
        row("01: numbers 0, gap notice, 1", vec![first, Gap, last], &[(1, 0), (22, 0)]),
        row("01: L = 16 with limit 16", vec![ours(0, 16, 1)], &[(21, 0)]),
        row("01: L = 15 with limit 16", vec![ours(0, 15, 1)], &[(1, 0)]),
        Row { buffer_length: 20, ..row("01: buffer 20 takes that unit", unit.clone(), &delivered) },
        Row { buffer_length: 19, ..row("01: buffer 19 gives 23", unit, &[(1, 0), (1, 0), (23, 0)]) },
        row("01: a damaged section does not join halves of two runs", halves, &[(1, 0), (16, 0), (16, 0), (22, 0)]),
    ]
}

#[rustfmt::skip] // one row per line
fn continuations() -> Vec<Row> {
    let [first, last] = pair();
    let flagged = changed(&last, with_llc_snap);
    let unit = unit_of_20();
    let gone = [0, 2, 1].map(|number: usize| unit[number].clone()).to_vec();
    let refused = [(1, 0), (22, 0)];
    vec![
        row("01: only with the same flag", vec![first, flagged], &refused),
        row("01: only with the same L", vec![unit[0].clone(), last.clone()], &refused),
        row("01: only if it is e", vec![unit[0].clone(), unit[2].clone()], &refused),
        row("01: 22 leaves the receiver idle", gone, &[(1, 0), (22, 0), (22, 0)]),
        row("01: an idle state", vec![last], &[(22, 0)]),
    ]
}

#[rustfmt::skip] // one row per line
fn passing_by() -> Vec<Row> {
    vec![
        row("A2: a sound section for another address between", between(others(0, 0xC1)), &[(1, 0), (2, 0), (0, 20)]),
        row("A5: address scrambling 01, another's address", between(others(0, 0xC5)), &[(1, 0), (19, 0), (22, 0)]),
        row("A5: another's section, damaged", between(damaged(&others(0, 0xC1))), &[(1, 0), (16, 0), (22, 0)]),
        row("A6: another's payload scrambling 11, last 255", between(others(255, 0xF1)), &[(1, 0), (2, 0), (0, 20)]),
    ]
}

/// Sections in the checksum form where others have CRC_32.
#[rustfmt::skip] // one row per line
fn both_forms() -> Vec<Row> {
    let last_of_2 = |address, byte_1| changed(&of_two(address, 1), |section| with_byte(section, 1, byte_1));
    let [first, last] = pair();
    let first = changed(&first, |section| in_checksum_form(section, [0; 4]));
    let whole = changed(&alone(), |section| in_checksum_form(section, *b"\x12\x34\x56\x78"));
    let refused = |number| [(1, 0), (number, 0), (22, 0)];
    vec![
        row("B1: bits 01 between", between(last_of_2(OURS, 0x70)), &refused(24)),
        row("B1: bits 01 between, another's address", between(last_of_2(ANOTHER, 0x70)), &refused(24)),
        row("B1: bits 01 between, no CRC_32", between(whole.clone()), &refused(24)),
        row("B1: bits 00 between, another's address", between(last_of_2(ANOTHER, 0x30)), &refused(15)),
        row("B1: bits 11 between, another's address", between(last_of_2(ANOTHER, 0xF0)), &refused(15)),
        row("B1: bits 01 in number 0", vec![first, last], &[(24, 0), (22, 0)]),
        row("B1: a unit after bits 01", vec![whole, alone()], &[(24, 0), (0, 20)]),
    ]
}

/// A run without LLC/SNAP, for us.
pub(super) fn open_run(next: usize, last: usize, filled: usize) -> Option<Run> {
    Some(Run {
        next,
        last,
        filled,
        llc_snap: false,
        address: OURS,
    })
}

#[rustfmt::skip] // one row per line
fn states() -> Vec<Row> {
    let held = bare_ipv4(50);
    let rest = vec![ours(0, 1, 51), ours(1, 1, 1)];
    vec![
        Row { state: open_run(1, 200, 0), ..row("A7: a state above the limit", vec![ours(1, 200, 1)], &[(21, 0)]) },
        Row { state: open_run(1, 1, 50), buffer_length: 49, held: held[..49].to_vec(), ..row("A7: a state above the buffer", vec![ours(1, 1, 0)], &[(23, 0)]) },
        Row { state: open_run(1, 1, 50), buffer_length: 50, held: held.clone(), ..row("A7: a state that fills the buffer", vec![ours(1, 1, 0)], &[(0, 50)]) },
        Row { state: open_run(1, 1, 49), buffer_length: 50, held, ..row("A8: number 0 above the room", rest, &[(23, 0), (22, 0)]) },
        Row { state: open_run(0, 300, 7), ..row("A10: a gap notice in a bad state", vec![Gap, alone()], &[(0, 20)]) },
        Row { state: open_run(0, 300, 7), ..row("11 before 12", vec![Section(vec![])], &[(11, 0)]) },
    ]
}

#[rustfmt::skip] // one row per line
fn first_sections() -> Vec<Row> {
    let limit = |limit| Settings { limit, ..SETTINGS };
    let state = open_run(1, 2, 9);
    vec![
        Row { settings: limit(255), ..row("A9: L = 255 with limit 255", vec![ours(0, 255, 0)], &[(21, 0)]) },
        Row { settings: limit(255), ..row("A9: L = 254 with limit 255", vec![ours(0, 254, 0)], &[(1, 0)]) },
        Row { settings: limit(256), ..row("A16: limit 256", vec![alone()], &[(10, 0)]) },
        Row { settings: limit(0), state, ..row("10 before 11 and 12, and idle", vec![Section(vec![])], &[(10, 0)]) },
        Row { state, ..row("number 0 forgets an open run", pair().to_vec(), &[(1, 0), (0, 20)]) },
    ]
}

/// A section for this address of a run of two, with payloads of 17 and 3 bytes and a unit of 20.
fn of_two(address: [u8; 6], section_number: u8) -> Event {
    let unit = bare_ipv4(20);
    let (first, last) = unit.split_at(17);
    let payload = [first, last][usize::from(section_number)];
    Section(sound(address, section_number, 1, payload))
}

/// The listing's settings with another range.
fn with_range(range: usize) -> Settings {
    Settings { range, ..SETTINGS }
}

/// Ours, other in that byte as printed: 0 is MAC_address_1.
fn other_in(place: usize) -> [u8; 6] {
    let mut address = OURS;
    address[place] ^= 1;
    address
}

/// Two and three sub-addresses of one estate, which share the one byte that is compared.
#[rustfmt::skip] // one row per line
fn two_sub_addresses() -> Vec<Row> {
    let (a, b, c) = (OURS, other_in(4), other_in(0));
    let of_range_1 = |source: &str, sections: &[([u8; 6], u8)], answers: &[(u8, usize)]| Row {
        settings: with_range(1),
        ..row(source, sections.iter().map(|&(address, number)| of_two(address, number)).collect(), answers)
    };
    vec![
        of_range_1("B10: A0, B0, A1, B1", &[(a, 0), (b, 0), (a, 1), (b, 1)], &[(1, 0), (1, 0), (22, 0), (22, 0)]),
        of_range_1("B10: a sister's number 1 ends the run", &[(a, 0), (b, 1), (a, 1)], &[(1, 0), (22, 0), (22, 0)]),
        of_range_1("B10: a sister's number 0 starts its own run", &[(a, 0), (b, 0), (b, 1)], &[(1, 0), (1, 0), (0, 20)]),
        of_range_1("B10: one sister after the other", &[(b, 0), (b, 1), (a, 0), (a, 1)], &[(1, 0), (0, 20), (1, 0), (0, 20)]),
        of_range_1("B10: A0, B0, C0, C1, A1, B1", &[(a, 0), (b, 0), (c, 0), (c, 1), (a, 1), (b, 1)], &[(1, 0), (1, 0), (1, 0), (0, 20), (22, 0), (22, 0)]),
        of_range_1("B10: A0, B0, C1: a run of nobody", &[(a, 0), (b, 0), (c, 1), (b, 1)], &[(1, 0), (1, 0), (22, 0), (22, 0)]),
    ]
}

/// For each range a sister that differs in the first byte that is not compared, and a stranger that
/// differs in the last one that is. With range 6 there is no sister.
#[rustfmt::skip] // one row per line
fn sisters_of_every_range() -> Vec<Row> {
    let mut rows = Vec::new();
    for range in 1..=6 {
        let mut of_range = |source: &str, other, answers: &[(u8, usize)]| rows.push(Row {
            settings: with_range(range),
            ..row(source, vec![of_two(OURS, 0), of_two(other, 0), of_two(OURS, 1), of_two(other, 1)], answers)
        });
        if range < 6 {
            of_range("B10: a sister in the first byte not compared", other_in(5 - range), &[(1, 0), (1, 0), (22, 0), (22, 0)]);
        }
        of_range("B10: a stranger in the last byte compared", other_in(6 - range), &[(1, 0), (2, 0), (0, 20), (2, 0)]);
    }
    rows
}

/// For each range states whose kept address differs from the own, where compared and where not; the
/// payload of their number 0 is held.
fn kept_addresses() -> Vec<Row> {
    let mut rows: Vec<Row> = (1..=6).flat_map(kept_addresses_of_range).collect();
    let state = kept(other_in(5));
    rows.push(Row {
        settings: with_range(7),
        state,
        ..row("B11: 10 before 11", vec![of_two(OURS, 1)], &[(10, 0)])
    });
    rows.push(Row {
        state,
        ..row(
            "A10: a gap notice after kept bytes that differ",
            vec![Gap, of_two(OURS, 1)],
            &[(22, 0)],
        )
    });
    for row in &mut rows {
        row.held = bare_ipv4(20)[..17].to_vec();
    }
    rows
}

/// The run of two sections for this address, after its number 0.
fn kept(address: [u8; 6]) -> Option<Run> {
    let run = open_run(1, 1, 17);
    run.map(|run| Run { address, ..run })
}

#[rustfmt::skip] // one row per line
fn kept_addresses_of_range(range: usize) -> Vec<Row> {
    let settings = with_range(range);
    let mut rows = Vec::new();
    for place in 6 - range..6 {
        let (state, stranger) = (kept(other_in(place)), of_two(other_in(place), 1));
        rows.push(Row { settings, state, ..row("B11: kept bytes differ where compared", vec![of_two(OURS, 1)], &[(11, 0)]) });
        rows.push(Row { settings, state, ..row("B11: 11 before 2, and idle", vec![stranger, of_two(OURS, 1)], &[(11, 0), (22, 0)]) });
        rows.push(Row { settings, state, ..row("B11: 11 before 12", vec![Section(vec![])], &[(11, 0)]) });
    }
    for place in 0..6 - range {
        let (state, sister) = (kept(other_in(place)), of_two(other_in(place), 1));
        rows.push(Row { settings, state, ..row("B11: kept bytes differ where not compared", vec![of_two(OURS, 1)], &[(22, 0)]) });
        rows.push(Row { settings, state, ..row("B11: the sister whose bytes are kept", vec![sister], &[(0, 20)]) });
        rows.push(Row { settings, state, ..row("B11: ours starts anew", pair().to_vec(), &[(1, 0), (0, 20)]) });
    }
    rows.push(Row { settings, state: kept(OURS), ..row("B11: the own bytes are kept", vec![of_two(OURS, 1)], &[(0, 20)]) });
    rows
}
