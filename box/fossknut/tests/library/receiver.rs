//! The receiver, and the rows of demand 3.

use crate::guarded::Guarded;
use crate::pair::Memory;
use crate::{ffi, numbers};
use fossknut::Answer;
use second::generator::datagrams::{any_datagram, bare_ipv4, going_on, udp_over_ipv4};
use second::generator::rows::{any_row, any_state, bad_settings, good_settings, nearly_continuing};
use second::generator::{sound, with_llc_snap};
use second::random::Random;
use second::receiver::{Receiver, Run, Settings};
use second::row::{whole_runs, Event};
use second::tally::Tally;
use second::telling;

#[test]
fn telling_inputs() {
    let mut memory = Memory::new();
    for row in telling::rows() {
        let mut pair = memory.pair(row.receiver(0xA5));
        assert_eq!(pair.row(&row.events), row.answers, "{}", row.source);
        assert!(pair.buffer.starts_with(&row.left), "{}", row.source);
    }
}

#[test]
fn random_rows() {
    let mut memory = Memory::new();
    let mut random = Random::new(1);
    let mut tally = Tally::default();
    for _ in 0..20_000 {
        let row = any_row(&mut random);
        let buffer = random.bytes(row.buffer_length.min(300));
        let buffer = buffer.into_iter().cycle().take(row.buffer_length);
        let mut pair = memory.pair(Receiver::new(row.settings, buffer.collect()));
        for (number, _) in pair.row(&row.events) {
            tally.count(number);
        }
    }
    tally.assert_all((0..=2).chain(12..=25), 200);
}

/// The wrapper beside demand 3 told over the whole row.
#[test]
fn random_rows_by_the_wrapper() {
    let mut random = Random::new(2);
    let mut delivered = 0;
    for _ in 0..20_000 {
        let row = any_row(&mut random);
        let whole = whole_runs(&row.settings, row.buffer_length, &row.events);
        let buffer = vec![0; row.buffer_length];
        let mut receiver = fossknut::Receiver::new(numbers::settings(&row.settings), buffer);
        for (event, whole) in row.events.iter().zip(whole) {
            let unit = match event {
                Event::Section(bytes) => match receiver.receive(bytes) {
                    Answer::Delivered(unit) => Some(unit.to_vec()),
                    _ => None,
                },
                Event::Gap => {
                    receiver.gap();
                    None
                }
            };
            delivered += usize::from(unit.is_some());
            assert_eq!(unit, whole.map(|whole| whole.unit), "{row:?}");
        }
    }
    assert!(delivered > 20_000, "{delivered}");
}

/// Few bytes that go on with what is held of a unit.
fn few_bytes(random: &mut Random, held: &[u8]) -> Vec<u8> {
    let length = random.pick(&[0, 1, 1, 2, 3, 50]);
    going_on(random, held, length)
}

/// A buffer that mostly begins with a datagram: often there is hardly any room after what is filled.
fn nearly_filled(random: &mut Random, filled: usize) -> Vec<u8> {
    let near = filled.min(66_000) + random.pick(&[0, 1, 1, 2, 3, 50]);
    let length = match random.below(32) {
        0 => near + random.below(3),
        _ if near < 300 => (near + random.below(3)).saturating_sub(1),
        _ => random.below(60),
    };
    going_on(random, &[], length)
}

#[test]
fn settings_and_states_of_any_value() {
    let mut memory = Memory::new();
    let mut random = Random::new(3);
    let mut tally = Tally::default();
    for _ in 0..40_000 {
        let settings = if random.one_in(6) {
            bad_settings(&mut random)
        } else {
            good_settings(&mut random)
        };
        let run = any_state(&mut random, &settings);
        let buffer = nearly_filled(&mut random, run.filled);
        let payload = few_bytes(&mut random, &buffer[..run.filled.min(buffer.len())]);
        let section = nearly_continuing(&mut random, &settings, &run, &payload);
        let mut pair = memory.pair(Receiver {
            settings,
            state: (!random.one_in(8)).then_some(run),
            buffer,
        });
        // READINGS A12: any number but 0 is a 1.
        let any_1 = random.pick(&[1, 2, 128, 255]);
        pair.state.llc_snap *= any_1;
        pair.state.run *= any_1;
        tally.count(pair.receive(&section).0);
    }
    tally.assert_all((0..=2).chain(10..=25), 20);
}

/// READINGS B12: what an idle state has beside its `run` means nothing, and is given back as zeros.
#[test]
fn idle_with_any_bytes() {
    let mut memory = Memory::new();
    let mut random = Random::new(4);
    for _ in 0..2_000 {
        let settings = good_settings(&mut random);
        let run = any_state(&mut random, &settings);
        let payload = few_bytes(&mut random, &[]);
        let section = nearly_continuing(&mut random, &settings, &run, &payload);
        let mut pair = memory.pair(Receiver::new(settings, vec![0; 100]));
        pair.state = ffi::State {
            run: 0,
            ..numbers::state(Some(run))
        };
        pair.receive(&section);
    }
}

/// Answer 2 leaves the state as given, in the bytes that a state has: others are rewritten.
#[test]
fn passed_by_rewrites_bytes_that_no_state_has() {
    let ours = fossknut::Settings {
        address: second::generator::OURS,
        range: 6,
        limit: 16,
    };
    let others = sound([0; 6], 0, 0, b"knut");
    let kept = ffi::State {
        run: 1,
        llc_snap: 1,
        next: [0, 2],
        last: [0, 3],
        filled: [0, 0, 0, 5],
        address: ours.address,
    };
    let passed_by = |run, llc_snap| {
        let mut state = ffi::State {
            run,
            llc_snap,
            ..kept
        };
        let mut buffer = *b"Fosskn";
        let answer = ffi::receive(&ours, &mut state, &others, &mut buffer);
        assert_eq!((answer, buffer), ((2, 0), *b"Fosskn"));
        state
    };
    let clear = ffi::State {
        llc_snap: 0,
        ..kept
    };
    assert_eq!(passed_by(1, 1), kept);
    assert_eq!(passed_by(7, 0), clear);
    assert_eq!(passed_by(7, 2), kept);
    assert_eq!(passed_by(255, 255), kept);
    assert_eq!(passed_by(0, 1), ffi::State::default());
}

#[test]
fn gap_notices_in_any_state() {
    let mut random = Random::new(5);
    for _ in 0..10_000 {
        let settings = good_settings(&mut random);
        let mut state = ffi::State {
            run: random.byte(),
            llc_snap: random.byte(),
            ..numbers::state(Some(any_state(&mut random, &settings)))
        };
        ffi::gap(&mut state);
        assert_eq!(state, ffi::State::default());
    }
}

/// Each bit of the own address at each range: `with` is given the settings, the address that differs
/// in this bit, and whether it is compared.
fn every_bit_at_every_range(seed: u64, mut with: impl FnMut(Settings, [u8; 6], bool)) {
    let mut random = Random::new(seed);
    for range in 1..=6 {
        let settings = Settings {
            range,
            ..good_settings(&mut random)
        };
        for bit in 0..48 {
            let mut address = settings.address;
            address[bit / 8] ^= 1 << (bit % 8);
            with(settings, address, bit / 8 >= 6 - range);
        }
    }
}

#[test]
fn every_bit_of_the_address_at_every_range() {
    let mut memory = Memory::new();
    every_bit_at_every_range(6, |settings, address, compared| {
        let mut pair = memory.pair(Receiver::new(settings, vec![0; 20]));
        let (number, _) = pair.receive(&sound(address, 0, 0, &bare_ipv4(20)));
        assert_eq!(number, if compared { 2 } else { 0 }, "{settings:?}");
    });
}

/// 11 where the kept address differs in a bit that is compared, else the section decides: one for the
/// own address gets 22, one for the kept address goes on with the run.
#[test]
fn every_bit_of_the_kept_address_at_every_range() {
    let mut memory = Memory::new();
    every_bit_at_every_range(8, |settings, address, compared| {
        let run = Run {
            next: 1,
            last: 1,
            filled: 0,
            llc_snap: false,
            address,
        };
        for (of, number) in [(settings.address, 22), (address, 0)] {
            let mut pair = memory.pair(Receiver {
                state: Some(run),
                ..Receiver::new(settings, vec![0; 20])
            });
            let (answer, _) = pair.receive(&sound(of, 1, 1, &bare_ipv4(20)));
            assert_eq!(answer, if compared { 11 } else { number }, "{settings:?}");
        }
    });
}

/// A state whose neighbours may not be touched, on either side.
#[test]
fn sixteen_bytes_of_state() {
    let settings = fossknut::Settings {
        address: second::generator::OURS,
        range: 1,
        limit: 16,
    };
    let sister = [0, 0x11, 0x22, 0x33, 0x44, 0x30];
    let section = sound(sister, 0, 2, b"Foss");
    let open = [&[1, 0, 0, 1, 0, 2, 0, 0, 0, 4], &sister[..]].concat();
    let mut memory = Guarded::new();
    for at_end in [true, false] {
        let bytes = if at_end {
            memory.at_end(&[0; 16])
        } else {
            memory.at_start(&[0; 16])
        };
        // SAFETY: a state is sixteen bytes of any value, and these are lent to nobody else.
        let state = unsafe { &mut *bytes.as_mut_ptr().cast::<ffi::State>() };
        let answer = ffi::receive(&settings, state, &section, &mut [0; 4]);
        assert_eq!(answer, (1, 0));
        // SAFETY: as above, the other way.
        let bytes = unsafe { *(state as *const ffi::State).cast::<[u8; 16]>() };
        assert_eq!(bytes[..], open);
        ffi::gap(state);
        assert_eq!(*state, ffi::State::default());
    }
}

/// Units at the edge of 65,535 bytes, in buffers at that edge, by few long sections and many short.
#[test]
fn the_longest_units() {
    let mut memory = Memory::new();
    let mut random = Random::new(7);
    let settings = Settings {
        limit: 255,
        ..good_settings(&mut random)
    };
    for (piece_size, unit_length, buffer_length, last) in [
        (4_080, 65_535, 65_535, (0, 65_535)),
        (4_080, 65_535, 65_534, (23, 0)),
        (4_080, 65_535, 70_000, (0, 65_535)),
        (4_080, 65_536, 70_000, (23, 0)),
        (257, 65_535, 65_535, (0, 65_535)),
        (258, 65_536, 65_536, (23, 0)),
    ] {
        let unit = any_datagram(&mut random, unit_length);
        let last_section_number = (unit_length - 1) / piece_size;
        let mut pair = memory.pair(Receiver::new(settings, vec![0x5A; buffer_length]));
        for (number, piece) in unit.chunks(piece_size).enumerate() {
            let address = settings.address;
            let section = sound(address, number as u8, last_section_number as u8, piece);
            let expected = if number == last_section_number {
                last
            } else {
                (1, 0)
            };
            assert_eq!(
                pair.receive(&section),
                expected,
                "{number} of {unit_length} bytes"
            );
        }
        let taken = last.1;
        assert!(pair.buffer[..taken] == unit[..taken]);
    }
}

#[test]
fn the_wrapper_by_any_memory() {
    let ours = fossknut::Settings {
        address: second::generator::OURS,
        range: 6,
        limit: 1,
    };
    let datagram = udp_over_ipv4(b"knut");
    let section = sound(ours.address, 0, 0, &datagram);
    let mut lent = [0; 33];
    let mut receiver = fossknut::Receiver::new(ours, &mut lent[..]);
    assert_eq!(receiver.receive(&section), Answer::Delivered(&datagram));
    assert_eq!(receiver.receive(&section).number(), 0);
    assert_eq!(receiver.settings(), &ours);
    assert_eq!(lent[..], [&datagram[..], &[0]].concat());
    let mut receiver = fossknut::Receiver::new(ours, vec![0; 31]);
    assert_eq!(receiver.receive(&section).number(), 23);
    assert_eq!(receiver.receive(&[]).number(), 12);
    assert_eq!(receiver.into_buffer(), [0; 31]);
    let mut receiver = fossknut::Receiver::new(ours, []);
    let empty = with_llc_snap(&sound(ours.address, 0, 0, &[]));
    assert_eq!(receiver.receive(&empty), Answer::Delivered(&[]));
    let others = receiver.receive(&sound([0; 6], 0, 1, &[]));
    assert_eq!((others, others.number()), (Answer::PassedBy, 2));
}
