//! Units for the sender.

use crate::generator::datagrams::{bare_ipv4, bare_ipv6, beginning};
use crate::generator::{sound, with_llc_snap, OURS};
use crate::listing::SETTINGS;
use crate::receiver::Settings;

/// A unit to send, and what has to come of it.
pub struct Sending {
    /// Where in the papers it comes from.
    pub source: String,
    /// The sender's settings.
    pub settings: Settings,
    /// LLC_SNAP_flag in a number: any but 0 is 1.
    pub llc_snap: u8,
    /// The piece size, if one is given.
    pub piece_size: Option<usize>,
    /// The unit.
    pub unit: Vec<u8>,
    /// The output buffer's length.
    pub output_length: usize,
    /// Number and length.
    pub answer: (u8, usize),
    /// What the output has to begin with.
    pub output: Vec<u8>,
}

/// All of them.
pub fn sendings() -> Vec<Sending> {
    let mut sendings = samples_of_01();
    sendings.extend(numbers());
    sendings.extend(request_7());
    sendings.extend(refusals());
    sendings.extend(one_datagram());
    sendings.extend(order_of_54());
    sendings.extend(versions());
    sendings.extend(stated_lengths());
    sendings
}

/// By the listing's settings, with room enough, without LLC/SNAP.
fn sending(
    source: impl Into<String>,
    piece_size: Option<usize>,
    unit: Vec<u8>,
    answer: (u8, usize),
) -> Sending {
    Sending {
        source: source.into(),
        settings: SETTINGS,
        llc_snap: 0,
        piece_size,
        unit,
        output_length: 70_000,
        answer,
        output: Vec::new(),
    }
}

/// The same with LLC/SNAP, which any unit may have, and by bytes 55.
fn flagged(
    source: impl Into<String>,
    piece_size: Option<usize>,
    unit_length: usize,
    answer: (u8, usize),
) -> Sending {
    Sending {
        llc_snap: 1,
        ..sending(source, piece_size, vec![0x55; unit_length], answer)
    }
}

#[rustfmt::skip] // one row per line
fn samples_of_01() -> Vec<Sending> {
    let header = vec![0x3E, 0xB0, 0x21, 0x30, 0x20, 0xC1, 0x00, 0x00, 0x10, 0x5E, 0x00, 0x02];
    let empty = with_llc_snap(&sound(OURS, 0, 0, &[]));
    vec![
        sending("01: unit of 4,081 by pieces of 4,080", Some(4_080), bare_ipv4(4_081), (0, 4_113)),
        Sending { output: empty, ..flagged("01, B9: empty unit", Some(4_080), 0, (0, 16)) },
        Sending { output: header, ..sending("01, A13, B9: address above, payload of 20 bytes", Some(4_080), bare_ipv4(20), (0, 36)) },
        Sending { output: vec![0x3E, 0xBF, 0xFD], ..sending("01: payload 4,080", Some(4_080), bare_ipv4(4_080), (0, 4_096)) },
    ]
}

#[rustfmt::skip] // one row per line
fn numbers() -> Vec<Sending> {
    let settings = Settings { limit: 256, ..SETTINGS };
    let with_flag = vec![0x3E, 0xB0, 0x0D, 0x30, 0x20, 0xC3];
    vec![
        Sending { output: with_flag.clone(), ..flagged("A12: flag 1", None, 0, (0, 16)) },
        Sending { llc_snap: 2, output: with_flag, ..flagged("A12: flag 2", None, 0, (0, 16)) },
        flagged("A14: piece size 0", Some(0), 0, (50, 0)),
        sending("A14: no piece size", None, bare_ipv4(4_081), (0, 4_161)),
        Sending { settings, ..flagged("A15: 10 before what else is wrong", None, 65_536, (10, 0)) },
        Sending { settings, ..flagged("A16: limit 256", Some(4_080), 0, (10, 0)) },
        sending("A20: 65,280 bytes", Some(4_080), bare_ipv4(65_280), (0, 65_536)),
        sending("A20: 65,281 bytes", Some(4_080), bare_ipv4(65_281), (52, 0)),
        sending("A20: 65,536 bytes", Some(4_080), bare_ipv6(65_536), (51, 0)),
    ]
}

/// No piece size given: 1,008 (02, request 7; READINGS B13, B14). Sizes that are given stay.
#[rustfmt::skip] // one row per line
fn request_7() -> Vec<Sending> {
    let limit = |limit| Settings { limit, ..SETTINGS };
    let by_default = |source: &str, unit_length, answer| sending(source, None, bare_ipv4(unit_length), answer);
    let start = |unit_length, last| sound(OURS, 0, last, &bare_ipv4(unit_length)[..1_008]);
    vec![
        Sending { output: with_llc_snap(&sound(OURS, 0, 0, &[])), ..flagged("request 7: no byte", None, 0, (0, 16)) },
        Sending { output: with_llc_snap(&sound(OURS, 0, 0, &[0x55])), ..flagged("request 7: 1 byte", None, 1, (0, 17)) },
        Sending { output: start(1_008, 0), ..by_default("request 7: 1,008 bytes", 1_008, (0, 1_024)) },
        Sending { output: start(1_009, 1), ..by_default("request 7: 1,009 bytes", 1_009, (0, 1_041)) },
        by_default("request 7: 16,128 bytes", 16_128, (0, 16_384)),
        by_default("request 7: 16,129 bytes", 16_129, (52, 0)),
        Sending { settings: limit(1), ..by_default("request 7: 1,008 bytes, limit 1", 1_008, (0, 1_024)) },
        Sending { settings: limit(1), ..by_default("request 7: 1,009 bytes, limit 1", 1_009, (52, 0)) },
        Sending { settings: limit(65), ..by_default("request 7: 65,521 bytes, limit 65", 65_521, (52, 0)) },
        Sending { settings: limit(66), ..by_default("request 7: 65,535 bytes, limit 66", 65_535, (0, 66_591)) },
        Sending { output_length: 1_040, output: vec![0; 1_040], ..by_default("request 7: one byte short", 1_009, (53, 0)) },
        Sending { output_length: 1_041, ..by_default("request 7: exactly enough", 1_009, (0, 1_041)) },
        sending("B14: piece size 1,009 stays", Some(1_009), bare_ipv4(1_009), (0, 1_025)),
        sending("B14: 16,129 bytes by pieces of 4,080", Some(4_080), bare_ipv4(16_129), (0, 16_193)),
        flagged("B14: piece size 0 is not the default", Some(0), 1, (50, 0)),
        flagged("B14: nor is 4,081", Some(4_081), 1, (50, 0)),
    ]
}

#[rustfmt::skip] // one row per line
fn refusals() -> Vec<Sending> {
    vec![
        flagged("50: piece size 4,081", Some(4_081), 0, (50, 0)),
        flagged("52: 17 pieces of 1", Some(1), 17, (52, 0)),
        flagged("52: 16 pieces of 1", Some(1), 16, (0, 272)),
        sending("52: 17 pieces of 2", Some(2), bare_ipv4(33), (52, 0)),
        sending("52: 16 pieces of 2", Some(2), bare_ipv4(32), (0, 288)),
        Sending { output_length: 15, output: vec![0; 15], ..flagged("53: an empty unit needs 16 bytes", None, 0, (53, 0)) },
        Sending { output_length: 4_112, output: vec![0; 4_112], ..sending("53: one byte short", Some(4_080), bare_ipv4(4_081), (53, 0)) },
        Sending { output_length: 4_113, ..sending("53: exactly enough", Some(4_080), bare_ipv4(4_081), (0, 4_113)) },
    ]
}

/// Without LLC/SNAP a unit is one datagram and nothing more; with it, any bytes.
#[rustfmt::skip] // one row per line
fn one_datagram() -> Vec<Sending> {
    let of_60_stating_59 = beginning(&bare_ipv4(59), vec![0; 60]);
    vec![
        sending("B7: 60 bytes stating 59", None, of_60_stating_59.clone(), (54, 0)),
        Sending { llc_snap: 1, ..sending("B7: the same with the flag", None, of_60_stating_59, (0, 76)) },
        sending("B7: an empty unit", None, Vec::new(), (54, 0)),
        flagged("B7: the same with the flag", None, 0, (0, 16)),
        sending("B8: hello and a line's end", Some(4_080), b"hello\n".to_vec(), (54, 0)),
        Sending { llc_snap: 1, ..sending("B8: the same with the flag", Some(4_080), b"hello\n".to_vec(), (0, 22)) },
        sending("B3: header length 0", None, beginning(&[0x40], bare_ipv4(20)), (0, 36)),
        sending("B3: IPv6 payload length 0", None, bare_ipv6(40), (0, 56)),
        sending("B3: IPv6 payload length 0, 39 bytes", None, bare_ipv6(40)[..39].to_vec(), (54, 0)),
        Sending { settings: Settings { limit: 17, ..SETTINGS }, ..sending("02, request 3: the longest of version 6", Some(4_080), bare_ipv6(65_535), (0, 65_807)) },
        Sending { settings: Settings { limit: 17, ..SETTINGS }, ..sending("02, request 3: the longest of version 4", Some(4_080), bare_ipv4(65_535), (0, 65_807)) },
        sending("B3: IPv6 payload length 65,535", Some(4_080), beginning(&[0x60, 0, 0, 0, 0xFF, 0xFF], vec![0; 65_535]), (54, 0)),
    ]
}

/// 10, 50, 51, 54, 52, 53.
#[rustfmt::skip] // one row per line
fn order_of_54() -> Vec<Sending> {
    let none = |length| vec![0x55; length];
    let settings = Settings { limit: 0, ..SETTINGS };
    vec![
        Sending { settings, ..sending("B7: 10 before 54", None, none(20), (10, 0)) },
        sending("B7: 50 before 54", Some(0), none(20), (50, 0)),
        sending("B7: 51 before 54", Some(4_080), none(65_536), (51, 0)),
        sending("B7: 54 alone", Some(4_080), none(65_280), (54, 0)),
        sending("B7: 54 before 52", Some(1), none(17), (54, 0)),
        sending("B7: 54 before 52, by the length", Some(4_080), none(65_281), (54, 0)),
        Sending { output_length: 35, output: vec![0; 35], ..sending("B7: 54 before 53", None, none(20), (54, 0)) },
        Sending { output_length: 0, ..sending("B7: 54 before 53, an empty unit", None, none(0), (54, 0)) },
    ]
}

/// Every version, with a length that both 4 and 6 could state.
fn versions() -> Vec<Sending> {
    let of_version = |version: u8| {
        let length = if version == 6 { 0 } else { 40 };
        let unit = beginning(&[version << 4, 0, 0, length, 0, 0], vec![0; 40]);
        let answer = match version {
            4 | 6 => (0, 56),
            _ => (54, 0),
        };
        sending(format!("B3: version {version}"), None, unit, answer)
    };
    (0..16).map(of_version).collect()
}

/// Units and stated lengths around the edges, by either version: only the unit's own length is taken,
/// from the header's length on.
fn stated_lengths() -> Vec<Sending> {
    let mut sendings = Vec::new();
    for unit in [1, 3, 5, 19, 20, 21, 39, 40, 41, 60] {
        for stated in (0..=unit + 2).chain([256 * unit, 65_535]) {
            let [high, low] = (stated as u16).to_be_bytes();
            for (start, header, length) in [
                ([0x45, 0, high, low, 0, 0], 20, stated),
                ([0x60, 0, 0, 0, high, low], 40, 40 + stated),
            ] {
                let is_one = length == unit && length >= header;
                let answer = if is_one { (0, unit + 16) } else { (54, 0) };
                let source = format!("02, request 3: {unit} bytes stating {length}");
                sendings.push(sending(
                    source,
                    None,
                    beginning(&start, vec![0; unit]),
                    answer,
                ));
            }
        }
    }
    sendings
}
