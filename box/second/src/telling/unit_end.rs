//! Rows for the receiver about where a unit ends (02, request 3; READINGS A32, B2 to B6).

use super::row::{changed, cut, open_run, ours, row, Row};
use crate::generator::datagrams::{bare_ipv4, bare_ipv6, beginning, udp_over_ipv4, udp_over_ipv6};
use crate::generator::{with_byte, with_llc_snap};
use crate::listing::SETTINGS;
use crate::receiver::Settings;
use crate::row::Event::{self, Gap, Section};
use crate::section::SHORTEST;

/// All of them.
pub(super) fn rows() -> Vec<Row> {
    let mut rows = last_of_all();
    rows.extend(nothing_stored());
    rows.extend(not_looked_at());
    rows.extend(stuffing());
    rows.extend(by_what_is_held());
    rows.extend(with_the_flag());
    rows.extend(versions());
    rows.extend(stated_lengths());
    rows.extend(trailing_stuffing());
    rows.extend(cuts());
    rows
}

/// What stands in a buffer before, where a row is about what is written.
const BEFORE: u8 = 0xA5;

/// Joined payloads in one section, with a buffer that just has the room.
fn alone(source: impl Into<String>, joined: &[u8], answer: (u8, usize)) -> Row {
    by_lengths(source, joined, &[joined.len()], answer)
}

/// Joined payloads by sections of these lengths, which are stored but for the last, with a buffer that
/// just has the room. Delivered, they are all written; at 25 the last payload is not.
fn by_lengths(
    source: impl Into<String>,
    joined: &[u8],
    lengths: &[usize],
    answer: (u8, usize),
) -> Row {
    let mut answers = vec![(1, 0); lengths.len()];
    answers[lengths.len() - 1] = answer;
    let written = match answer.0 {
        0 => joined.len(),
        _ => lengths[..lengths.len() - 1].iter().sum(),
    };
    let mut left = joined[..written].to_vec();
    left.resize(joined.len(), BEFORE);
    Row {
        held: vec![BEFORE; joined.len()],
        buffer_length: joined.len(),
        left,
        ..row(source, cut(joined, lengths), &answers)
    }
}

/// `datagram` and that many bytes of stuffing.
fn stuffed(mut datagram: Vec<u8>, stuffing: usize) -> Vec<u8> {
    datagram.resize(datagram.len() + stuffing, 0xFF);
    datagram
}

/// No datagram: version 5, and all else as it should be.
fn of_version_5(length: usize) -> Vec<u8> {
    beginning(&[0x55], bare_ipv4(length))
}

/// 25 is asked after 20 to 23, and at number L only.
#[rustfmt::skip] // one row per line
fn last_of_all() -> Vec<Row> {
    let none = |lengths: &[usize]| cut(&of_version_5(lengths.iter().sum()), lengths);
    let scrambled = |event: &Event| changed(event, |section| with_byte(section, 5, 0xD1));
    let with_limit = |limit| Settings { limit, ..SETTINGS };
    let fits = stuffed(bare_ipv4(25), 1);
    vec![
        row("B2: 20 before 25", none(&[20]).iter().map(scrambled).collect(), &[(20, 0)]),
        Row { settings: with_limit(1), ..row("B2: 21 before 25", none(&[17, 3]), &[(21, 0), (21, 0)]) },
        row("B2: 22 before 25", none(&[17, 3])[1..].to_vec(), &[(22, 0)]),
        row("B2: only at number L", none(&[20, 0, 20]), &[(1, 0), (1, 0), (25, 0)]),
        row("B2: an empty unit", cut(&[], &[0]), &[(25, 0)]),
        row("B2: an empty unit in two sections", cut(&[], &[0, 0]), &[(1, 0), (25, 0)]),
        Row { buffer_length: 25, ..row("B5: buffer 25, unit 25 and 1 byte of stuffing", cut(&fits, &[26]), &[(23, 0)]) },
        Row { buffer_length: 26, ..row("B5: buffer 26", cut(&fits, &[26]), &[(0, 25)]) },
        Row { buffer_length: 25, ..row("B5: the same in two sections", cut(&fits, &[25, 1]), &[(1, 0), (23, 0)]) },
        Row { buffer_length: 25, ..row("B5: a bad unit that overruns", none(&[26]), &[(23, 0)]) },
        Row { buffer_length: 26, ..row("B5: a bad unit that fits", none(&[26]), &[(25, 0)]) },
    ]
}

/// 25 leaves the buffer as it was before this section, and the receiver idle.
#[rustfmt::skip] // one row per line
fn nothing_stored() -> Vec<Row> {
    let (good, bad) = (bare_ipv4(20), of_version_5(20));
    let again = |lengths: &[usize], number: usize| {
        let sections = cut(&bad, lengths);
        [sections.clone(), vec![sections[number].clone()]].concat()
    };
    vec![
        by_lengths("B2: IPv4 header cut 1 + 2 + rest", &good, &[1, 2, 17], (0, 20)),
        by_lengths("B2: the same, version 5", &bad, &[1, 2, 17], (25, 0)),
        by_lengths("B2: the same, total length 21", &beginning(&[0x45, 0, 0, 21], good.clone()), &[1, 2, 17], (25, 0)),
        alone("B2: nothing of a single section", &bad, (25, 0)),
        row("B2: idle after 25", again(&[1, 2, 17], 2), &[(1, 0), (1, 0), (25, 0), (22, 0)]),
        row("B2: idle after 25, number 1", again(&[1, 2, 17], 1), &[(1, 0), (1, 0), (25, 0), (22, 0)]),
        row("B2: a unit after 25", [cut(&bad, &[17, 3]), cut(&good, &[17, 3])].concat(), &[(1, 0), (25, 0), (1, 0), (0, 20)]),
        row("B2: a gap notice after 25", [cut(&bad, &[20]), vec![Gap], cut(&good, &[20])].concat(), &[(25, 0), (0, 20)]),
        Row { state: open_run(1, 1, 17), held: good[..17].to_vec(), left: good[..17].to_vec(), ..row("B2: number 0 forgets the open run, and gets 25", [cut(&bad, &[20]), cut(&good, &[17, 3])[1..].to_vec()].concat(), &[(25, 0), (22, 0)]) },
    ]
}

/// Of the header only version and length count, and payload length 0 states 40.
#[rustfmt::skip] // one row per line
fn not_looked_at() -> Vec<Row> {
    let any_checksum = [0x45, 0, 0, 20, 0, 0, 0, 0, 0, 0, 0x12, 0x34];
    let all_ones = [0x4F, 0xFF, 0, 20, 0xFF, 0xFF, 0xFF, 0xFF];
    vec![
        alone("B3: header length 15", &beginning(&[0x4F], bare_ipv4(20)), (0, 20)),
        alone("B3: header length 0", &beginning(&[0x40], bare_ipv4(20)), (0, 20)),
        alone("B3: a header checksum that is wrong", &beginning(&any_checksum, bare_ipv4(20)), (0, 20)),
        alone("B3: ones in all other bits", &beginning(&all_ones, bare_ipv4(20)), (0, 20)),
        alone("B3: traffic class and flow label", &beginning(&[0x6F, 0xFF, 0xFF, 0xFF], bare_ipv6(41)), (0, 41)),
        alone("B3: IPv6 payload length 0", &bare_ipv6(40), (0, 40)),
        alone("B3: IPv6 payload length 0 and stuffing", &stuffed(bare_ipv6(40), 9), (0, 40)),
        alone("B3: IPv6 payload length 65,535", &beginning(&[0x60, 0, 0, 0, 0xFF, 0xFF], vec![0; 4_080]), (25, 0)),
        longest("B3: the same in 65,535 bytes", &[0x60, 0, 0, 0, 0xFF, 0xFF], (25, 0)),
        longest("B3: 65,536 stated in 65,535 bytes", &[0x60, 0, 0, 0, 0xFF, 0xD8], (25, 0)),
        longest("B3: the longest unit of version 6", &[0x60, 0, 0, 0, 0xFF, 0xD7], (0, 65_535)),
        longest("B3: the longest unit of version 4", &[0x45, 0, 0xFF, 0xFF], (0, 65_535)),
        longest("B3: 65,534 and a byte of stuffing", &[0x45, 0, 0xFF, 0xFE], (0, 65_534)),
    ]
}

/// 65,535 bytes that begin so, in 17 sections.
fn longest(source: &str, start: &[u8], answer: (u8, usize)) -> Row {
    let lengths = [&[4_080; 16][..], &[255]].concat();
    let joined = beginning(start, vec![0; 65_535]);
    Row {
        settings: Settings {
            limit: 17,
            ..SETTINGS
        },
        ..by_lengths(source, &joined, &lengths, answer)
    }
}

/// Bytes after the stated length are written, and not handed over.
#[rustfmt::skip] // one row per line
fn stuffing() -> Vec<Row> {
    vec![
        by_lengths("B4: stated 20, payloads 20, 5, 5", &stuffed(bare_ipv4(20), 10), &[20, 5, 5], (0, 20)),
        by_lengths("B4: the unit ends inside the first of three sections", &stuffed(bare_ipv4(20), 40), &[25, 20, 15], (0, 20)),
        by_lengths("B4: version 6, and a section of stuffing", &stuffed(bare_ipv6(48), 30), &[48, 30], (0, 48)),
        alone("B6: stuffing is written, too", &stuffed(bare_ipv4(28), 4), (0, 28)),
        by_lengths("B6: in the last of two sections", &stuffed(bare_ipv4(28), 4), &[20, 12], (0, 28)),
        by_lengths("B6: one byte, alone in its section", &stuffed(bare_ipv4(28), 1), &[28, 1], (0, 28)),
    ]
}

/// What the buffer holds before f decides, whoever wrote it. The payload after it has bytes 55.
#[rustfmt::skip] // one row per line
fn by_what_is_held() -> Vec<Row> {
    let handed_in = |source: &str, held: &[u8], payload_length, answer| Row {
        state: open_run(1, 1, held.len()),
        held: held.to_vec(),
        buffer_length: held.len() + payload_length,
        ..row(source, vec![ours(1, 1, payload_length)], &[answer])
    };
    let ipv4 = beginning(&[0x45, 0, 0, 33], vec![0; 10]);
    let ipv6 = beginning(&[0x60], vec![0; 10]);
    vec![
        handed_in("A32: f = 10, a header held", &ipv4, 30, (0, 33)),
        handed_in("A32: f = 10, foreign bytes held", &[0x55; 10], 30, (25, 0)),
        handed_in("A32: f = 10, a header of version 6 held", &ipv6, 30, (0, 40)),
        handed_in("A32: the same, one byte short", &ipv6, 29, (25, 0)),
        handed_in("A32: f = 3, and 0055 stated", &[0x45, 0, 0], 82, (0, 0x55)),
        handed_in("A32: the same, one byte short", &[0x45, 0, 0], 81, (25, 0)),
        handed_in("A32: f = 3, and 5555 stated", &[0x45, 0, 0x55], 4_080, (25, 0)),
        handed_in("A32: f = 5, and 40 + 0055 stated", &[0x60, 0, 0, 0, 0], 120, (0, 125)),
        handed_in("A32: the same, one byte short", &[0x60, 0, 0, 0, 0], 119, (25, 0)),
        handed_in("A32: nothing held, version 5", &[], 30, (25, 0)),
        Row { state: open_run(1, 1, 0), held: bare_ipv4(33), ..row("A32: bytes from f on do not count", vec![ours(1, 1, 30)], &[(25, 0)]) },
    ]
}

/// The same inputs with LLC/SNAP are handed over whole, whatever they are.
fn with_the_flag() -> Vec<Row> {
    let mut rows = last_of_all();
    rows.extend(not_looked_at());
    rows.extend(stuffing());
    rows.retain(|row| matches!(row.answers.last(), Some((0 | 25, _))));
    for row in &mut rows {
        row.source += ", with the flag";
        let with_flag = |event: &Event| changed(event, with_llc_snap);
        row.events = row.events.iter().map(with_flag).collect();
        let joined = joined_length(&row.events);
        *row.answers.last_mut().expect("an answer") = (0, joined);
        row.left.clear();
    }
    rows
}

/// The length of all payloads of the row.
fn joined_length(events: &[Event]) -> usize {
    let lengths = events.iter().map(|event| match event {
        Section(bytes) => bytes.len() - SHORTEST,
        Gap => 0,
    });
    lengths.sum()
}

/// Every first byte: versions 0 to 15, each with every header length.
fn versions() -> Vec<Row> {
    let of_first_byte = |first: u8| {
        let joined = beginning(&[first, 0, 0, 30, 0, 10], vec![0; 60]);
        let answer = match first >> 4 {
            4 => (0, 30),
            6 => (0, 50),
            _ => (25, 0),
        };
        alone(format!("B3: first byte {first:02X}"), &joined, answer)
    };
    (0..=0xFF).map(of_first_byte).collect()
}

/// Joined and stated lengths around the edges, by either version.
fn stated_lengths() -> Vec<Row> {
    let mut rows = Vec::new();
    for joined in [1, 2, 3, 4, 5, 6, 19, 20, 21, 38, 39, 40, 41, 42, 60] {
        for stated in (0..=joined + 2).chain([256 + 20, 256 * 20, 65_535]) {
            let [high, low] = (stated as u16).to_be_bytes();
            for (start, header, length) in [
                ([0x45, 0, high, low, 0, 0], 20, stated),
                ([0x60, 0, 0, 0, high, low], 40, 40 + stated),
            ] {
                let is_there = header <= length && length <= joined;
                let answer = if is_there { (0, length) } else { (25, 0) };
                let source = format!("02, request 3: stated {length} of {joined}");
                rows.push(alone(source, &beginning(&start, vec![0; joined]), answer));
            }
        }
    }
    rows
}

/// Stuffing of 0 bytes to several sections, whole sections of which may follow the unit.
fn trailing_stuffing() -> Vec<Row> {
    let mut rows = Vec::new();
    for stuffing in 0..=60 {
        for datagram in [bare_ipv4(20), bare_ipv4(33), bare_ipv6(40), bare_ipv6(57)] {
            let unit = datagram.len();
            let joined = stuffed(datagram, stuffing);
            for piece_size in [8, 20, 40] {
                let lengths: Vec<_> = joined.chunks(piece_size).map(<[u8]>::len).collect();
                let source = format!("B4: {stuffing} bytes of stuffing by pieces of {piece_size}");
                rows.push(by_lengths(source, &joined, &lengths, (0, unit)));
            }
        }
    }
    rows
}

/// Headers cut at every byte from 1 to 40 over two and three sections.
fn cuts() -> Vec<Row> {
    let mut rows = Vec::new();
    for datagram in [udp_over_ipv4(&[b'4'; 32]), udp_over_ipv6(&[b'6'; 12])] {
        for first in 1..=40 {
            rows.extend(cut_at(&datagram, &[first]));
            for second in first + 1..=40 {
                rows.extend(cut_at(&datagram, &[first, second]));
            }
        }
    }
    rows
}

/// The datagram cut at these bytes: without empty sections, with one at each cut, and with some
/// before and after them all. It is delivered, and without its last byte gets 25.
fn cut_at(datagram: &[u8], cuts: &[usize]) -> Vec<Row> {
    let mut rows = Vec::new();
    let whole = datagram.len();
    for (length, answer) in [(whole, (0, whole)), (whole - 1, (25, 0))] {
        let starts = [&[0], cuts].concat();
        let ends = [cuts, &[length]].concat();
        let lengths = starts.iter().zip(ends).map(|(start, end)| [end - start]);
        let lengths: Vec<_> = lengths.collect();
        let between = lengths.join(&0);
        let around = [&[0], &lengths.concat()[..], &[0, 0]].concat();
        for lengths in [lengths.concat(), between, around] {
            let version = datagram[0] >> 4;
            let source =
                format!("B2: {length} of {whole} bytes, version {version}, in {lengths:?}");
            rows.push(by_lengths(source, &datagram[..length], &lengths, answer));
        }
    }
    rows
}
