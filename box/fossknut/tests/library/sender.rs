//! The sender, and the way back through the receiver.

use crate::guarded::Guarded;
use crate::{ffi, numbers};
use fossknut::{Answer, Refusal};
use second::generator::datagrams::{any_datagram, any_unit, bare_ipv4};
use second::generator::rows::{bad_settings, good_settings};
use second::generator::{subsets, OURS};
use second::random::Random;
use second::receiver::Settings;
use second::recording::offers;
use second::telling;

/// What stands in an output buffer before the call.
const PATTERN: u8 = 0xA5;

/// One call of the sender.
pub(crate) struct Call<'a> {
    pub(crate) settings: Settings,
    pub(crate) llc_snap: u8,
    pub(crate) piece_size: Option<usize>,
    pub(crate) unit: &'a [u8],
}

impl Call<'_> {
    /// What the second program answers, and the whole output buffer after it.
    fn second(&self, output_length: usize) -> ((u8, usize), Vec<u8>) {
        let mut output = vec![PATTERN; output_length];
        let llc_snap = self.llc_snap != 0;
        let answer = second::sender::send(
            &self.settings,
            llc_snap,
            self.piece_size,
            self.unit,
            &mut output,
        );
        ((answer.number, answer.length), output)
    }
}

/// Guarded memory for a sender: one for its output, one for the unit.
pub(crate) struct Memory {
    output: Guarded,
    unit: Guarded,
}

impl Memory {
    pub(crate) fn new() -> Self {
        Self {
            output: Guarded::new(),
            unit: Guarded::new(),
        }
    }

    /// The library's answer and output, which have to be these.
    fn expect(&mut self, call: &Call, answer: (u8, usize), expected: &[u8]) {
        let output = self.output.at_end(&vec![PATTERN; expected.len()]);
        let unit = self.unit.at_end(call.unit);
        let settings = numbers::settings(&call.settings);
        let given = match call.piece_size {
            Some(size) => ffi::send(&settings, call.llc_snap, size, unit, output),
            None => ffi::send_by_default(&settings, call.llc_snap, unit, output),
        };
        let of = (call.unit.len(), call.piece_size, expected.len());
        assert_eq!(given, answer, "unit, piece size and output buffer {of:?}");
        assert!(output == expected, "the outputs differ: {of:?}");
        assert!(unit == call.unit, "the call changed its input");
    }

    /// Buffers one short, exact, and, at every third length of a unit, larger.
    pub(crate) fn around(&mut self, call: &Call) -> (u8, usize) {
        let (answer, mut output) = call.second(call.unit.len() + 16 * 256);
        output.truncate(answer.1 + 9);
        if call.unit.len() % 3 == 0 || answer.0 != 0 {
            self.expect(call, answer, &output);
        }
        if answer.0 == 0 {
            self.expect(call, answer, &output[..answer.1]);
            self.expect(call, (53, 0), &vec![PATTERN; answer.1 - 1]);
        }
        answer
    }
}

#[test]
fn telling_inputs() {
    let mut memory = Memory::new();
    for sending in telling::sendings() {
        let call = Call {
            settings: sending.settings,
            llc_snap: sending.llc_snap,
            piece_size: sending.piece_size,
            unit: &sending.unit,
        };
        let (answer, output) = call.second(sending.output_length);
        assert_eq!(answer, sending.answer, "{}", sending.source);
        memory.expect(&call, answer, &output);
    }
}

/// Lengths of 0 to 9,000 bytes, as far as one section more than the limit.
#[test]
fn every_length() {
    let mut memory = Memory::new();
    let mut random = Random::new(1);
    for (piece_size, step) in [
        (Some(1), 1),
        (Some(16), 1),
        (Some(1_008), 7),
        (Some(4_079), 7),
        (Some(4_080), 1),
        (None, 1),
    ] {
        let settings = Settings {
            limit: 255,
            ..good_settings(&mut random)
        };
        let most = 255 * piece_size.unwrap_or(1_008);
        for length in (0..=9_000.min(most + 1)).step_by(step) {
            // Fewer than 20 bytes are no datagram.
            let llc_snap = length < 20 || length % 3 != 0;
            let call = Call {
                settings,
                llc_snap: u8::from(llc_snap) * (1 + length as u8 % 2),
                piece_size,
                unit: &any_unit(&mut random, llc_snap, length),
            };
            let (number, _) = memory.around(&call);
            let expected = if length <= most { 0 } else { 52 };
            assert_eq!(number, expected, "{length} bytes");
        }
    }
}

/// The longest units, at limits that they just fit and just do not.
#[test]
fn the_longest_units() {
    let mut memory = Memory::new();
    let mut random = Random::new(2);
    for (piece_size, limit, length, number) in [
        (Some(4_080), 17, 65_535, 0),
        (Some(4_080), 16, 65_535, 52),
        (Some(4_080), 16, 65_280, 0),
        (Some(4_080), 16, 65_281, 52),
        (None, 66, 65_535, 0),
        (None, 65, 65_535, 52),
        (None, 255, 65_535, 0),
        (None, 255, 65_536, 51),
        (Some(257), 255, 65_535, 0),
        (Some(257), 254, 65_535, 52),
        (Some(256), 255, 65_535, 52),
        (Some(256), 255, 65_280, 0),
        (Some(1), 255, 65_535, 52),
    ] {
        for llc_snap in [0, 0xFF] {
            let call = Call {
                settings: Settings {
                    address: OURS,
                    range: 1,
                    limit,
                },
                llc_snap,
                piece_size,
                unit: &any_unit(&mut random, llc_snap != 0, length),
            };
            assert_eq!(memory.around(&call).0, number, "{length} by {piece_size:?}");
        }
    }
}

/// Without a piece size (02, request 7): 52 exactly where the unit has more than 1,008 bytes for each
/// section of the limit, and no section has more than 1,024 bytes.
#[test]
fn smaller_sections_by_default() {
    let mut memory = Memory::new();
    let mut random = Random::new(5);
    let of_the_request = [0, 1, 1_008, 1_009, 16_128, 16_129].map(|length| (16, length));
    let at_each_limit = (1..=65).flat_map(|limit| [0, 1].map(|more| (limit, 1_008 * limit + more)));
    for (limit, length) in at_each_limit.chain(of_the_request) {
        let llc_snap = length < 20; // too few for a datagram
        let call = Call {
            settings: Settings {
                address: OURS,
                range: 6,
                limit,
            },
            llc_snap: llc_snap.into(),
            piece_size: None,
            unit: &any_unit(&mut random, llc_snap, length),
        };
        let (number, total) = memory.around(&call);
        let expected = if length > 1_008 * limit { 52 } else { 0 };
        assert_eq!(number, expected, "{length} bytes, limit {limit}");
        let (_, output) = call.second(length + 16 * limit);
        assert!(offers(&output[..total]).all(|(_, section)| section.len() <= 1_024));
    }
}

/// The sample is what the library sends without a piece size.
#[test]
fn the_sample_sent_by_default() {
    let sample = include_bytes!("../../../../samples/sent-by-default.bin");
    let unit = [&sample[12..1_020], &sample[1_036..1_037]].concat();
    let call = Call {
        settings: second::listing::SETTINGS,
        llc_snap: 0,
        piece_size: None,
        unit: &unit,
    };
    Memory::new().expect(&call, (0, 1_041), sample);
}

/// The refusals of the sender, in their order.
const REFUSALS: [u8; 6] = [10, 50, 51, 54, 52, 53];

/// LLC_SNAP_flag and a unit to which of 51 and 54 those of `faults` apply. A header of version 6 can
/// state lengths that are over 65,535.
fn faulty_unit(random: &mut Random, faults: &[u8]) -> (u8, Vec<u8>) {
    let length = if faults.contains(&51) {
        random.between(65_537, 65_574)
    } else {
        random.between(4_082, 9_000)
    };
    if !faults.contains(&54) {
        let llc_snap = random.pick(&[0, 0, 1, 255]);
        return (llc_snap, any_unit(random, llc_snap != 0, length));
    }
    let mut unit = any_datagram(random, length);
    match random.below(3) {
        0 => unit.push(random.byte()),
        1 => drop(unit.pop()),
        _ => unit[0] ^= 0x80, // the version
    }
    (0, unit)
}

/// A call to which the refusals of `faults` apply, and no others, and the output buffer's length. Of
/// flag and unit that is true already.
fn faulty_call<'a>(
    random: &mut Random,
    (llc_snap, unit): &'a (u8, Vec<u8>),
    faults: &[u8],
) -> (Call<'a>, usize) {
    let piece_size = if faults.contains(&50) {
        Some(random.pick(&[0, 4_081, 4_096, 65_537, 1 << 32 | 16, usize::MAX]))
    } else if random.one_in(4) {
        None
    } else {
        Some(random.between(300, 4_080))
    };
    let limit = if faults.contains(&52) {
        random.between(1, (unit.len() - 1) / 4_080)
    } else {
        255
    };
    let output_length = if faults.contains(&53) {
        random.below(unit.len() + 32)
    } else {
        unit.len() + 16 * 255
    };
    let settings = if faults.contains(&10) {
        bad_settings(random)
    } else {
        Settings {
            limit,
            ..good_settings(random)
        }
    };
    let call = Call {
        settings,
        llc_snap: *llc_snap,
        piece_size,
        unit,
    };
    (call, output_length)
}

/// The first refusal in the papers' order is answered, and nothing written.
#[test]
fn every_set_of_faults() {
    let mut memory = Memory::new();
    let mut random = Random::new(3);
    for faults in subsets(&REFUSALS) {
        for _ in 0..20 {
            let unit = faulty_unit(&mut random, &faults);
            let (call, output_length) = faulty_call(&mut random, &unit, &faults);
            let (answer, output) = call.second(output_length);
            let first = faults.first().copied().unwrap_or(0);
            assert_eq!(answer.0, first, "{faults:?}");
            memory.expect(&call, answer, &output);
        }
    }
}

/// What is sent, through a fresh receiver with no more room than the unit needs.
fn assert_delivered(settings: fossknut::Settings, sections: &[u8], unit: &[u8]) {
    let mut receiver = fossknut::Receiver::new(settings, vec![0; unit.len()]);
    let mut delivered = false;
    for (_, section) in offers(sections) {
        assert!(!delivered, "a section after the last");
        match receiver.receive(section) {
            Answer::Stored => {}
            answer => {
                assert_eq!(answer, Answer::Delivered(unit));
                delivered = true;
            }
        }
    }
    assert!(delivered);
}

#[test]
fn what_the_wrapper_sends_the_wrapper_receives() {
    let mut random = Random::new(4);
    for turn in 0..600 {
        let settings = numbers::settings(&good_settings(&mut random));
        let piece_size = match random.below(4) {
            0 => None,
            1 => Some(random.between(1, 4_080)),
            _ => Some(random.between(1, 60)),
        };
        let longest = 65_535.min(settings.limit * piece_size.unwrap_or(1_008));
        let llc_snap = longest < 20 || turn % 2 == 0;
        let length = random.between(0, longest);
        let unit = any_unit(&mut random, llc_snap, length);
        let mut output = vec![0; unit.len() + 16 * settings.limit];
        let sent = fossknut::send(&settings, llc_snap, piece_size, &unit, &mut output);
        let sent = sent.expect("a unit of as many sections as the limit allows");
        assert_delivered(settings, &output[..sent], &unit);
    }
}

#[test]
fn the_wrapper_refuses_by_name() {
    let ours = fossknut::Settings {
        address: OURS,
        range: 6,
        limit: 1,
    };
    let mut output = [0; 36];
    let mut send =
        |piece_size, unit: &[u8]| fossknut::send(&ours, false, piece_size, unit, &mut output);
    assert_eq!(send(None, &bare_ipv4(20)), Ok(36));
    assert_eq!(send(Some(0), &[]), Err(Refusal::PieceSize));
    assert_eq!(send(None, &[0; 65_536]), Err(Refusal::Unit));
    assert_eq!(send(None, &[]), Err(Refusal::IpDatagram));
    assert_eq!(send(Some(19), &bare_ipv4(20)), Err(Refusal::Sections));
    assert_eq!(send(None, &bare_ipv4(1_009)), Err(Refusal::Sections));
    assert_eq!(send(None, &bare_ipv4(21)), Err(Refusal::Output));
    assert_eq!(fossknut::send(&ours, true, None, &[], &mut output), Ok(16));
    let none = fossknut::Settings { limit: 0, ..ours };
    assert_eq!(
        fossknut::send(&none, false, None, &[], &mut []),
        Err(Refusal::Settings)
    );
}
