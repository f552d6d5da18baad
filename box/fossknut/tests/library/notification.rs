//! The INT reader.

use crate::{ffi, Library};
use fossknut::notification;
use second::generator::notifications::{
    any_notification, bytes_changed, descriptor, faulty, filler, with_loops, CHECKS,
};
use second::generator::{seal, subsets, OURS};
use second::random::Random;
use second::tally::Tally;
use second::telling;

/// A whole descriptor.
const LOCATION: &[u8] = b"\x13\x09location!";

impl Library {
    /// The library's number and offset, which have to be the second program's, as the wrapper's
    /// answer has to be.
    fn notification(&mut self, device: [u8; 6], section: &[u8]) -> (u8, usize) {
        let answer = self.call(section, |section| ffi::notification(device, section));
        let expected = second::notification::read(device, section);
        let expected = (expected.number, expected.offset);
        assert_eq!(answer, expected, "{device:02X?} in {section:02X?}");
        match notification::read(device, section) {
            Ok(Some(location)) => {
                assert_eq!(answer.0, 3);
                assert!(std::ptr::eq(location.bytes(), &section[answer.1..][..9]));
            }
            Ok(None) => assert_eq!(answer.0, 4),
            Err(refusal) => assert_eq!(answer.0, refusal.number()),
        }
        answer
    }
}

#[test]
fn telling_inputs() {
    let mut library = Library::new();
    for telling in telling::notifications() {
        let answer = library.notification(telling.device, &telling.section);
        assert_eq!(answer, telling.answer, "{}", telling.source);
    }
}

/// All lengths to beyond 4,096 bytes, filled up by descriptors in the platform loop.
#[test]
fn every_length() {
    let mut library = Library::new();
    let mut random = Random::new(1);
    for length in (0..600).chain(4_000..4_110) {
        let body = length.max(18) - 18;
        // One byte cannot be filled: 32 in place of 4.
        let (descriptors, filled) = match body {
            1 => (vec![0x80], 32),
            _ => (filler(&mut random, body), 4),
        };
        let section = with_loops(&[descriptors]);
        let expected = match length {
            0..=17 => 12,
            18..=4_096 => filled,
            _ => 14,
        };
        let (number, _) = library.notification(OURS, &section[..length]);
        assert_eq!(number, expected, "{length} bytes");
    }
}

/// The longest section, all of empty descriptors, in each kind of loop.
#[test]
fn as_many_descriptors_as_can_be() {
    let mut library = Library::new();
    for tag in [0x00, 0x0E, 0x80] {
        let empty = descriptor(tag, &[]);
        let platform = with_loops(&[empty.repeat(2_039)]);
        let target = with_loops(&[vec![], empty.repeat(2_037), vec![]]);
        let operational = with_loops(&[vec![], vec![], empty.repeat(2_037)]);
        for section in [&platform, &target, &operational] {
            assert_eq!(section.len(), 4_096);
            assert_eq!(library.notification(OURS, section), (4, 0), "{tag:#04X}");
        }
        let after = [&empty.repeat(2_030)[..], &descriptor(0x80, &[0]), LOCATION].concat();
        let last = with_loops(&[vec![], vec![], after]);
        assert_eq!(library.notification(OURS, &last), (3, 4_096 - 4 - 9));
    }
}

/// The stack that the reader takes does not grow with the section: as many descriptors, in a thread
/// of 64 KiB.
#[test]
fn as_many_descriptors_in_a_small_stack() {
    let empty = descriptor(0x80, &[]);
    let before = [&empty.repeat(2_031)[..], LOCATION].concat();
    for (loops, located) in [
        (vec![empty.repeat(2_039)], false),
        (vec![vec![], empty.repeat(2_037), vec![]], false),
        (vec![vec![], vec![], empty.repeat(2_037)], false),
        (vec![vec![], vec![], before], true),
    ] {
        let section = with_loops(&loops);
        let reader = move || notification::read(OURS, &section).unwrap().is_some();
        let thread = std::thread::Builder::new().stack_size(64 * 1024);
        assert_eq!(thread.spawn(reader).unwrap().join().unwrap(), located);
    }
}

/// As many empty pairs as a section can have, and as many as can stand before one with a location.
#[test]
fn as_many_pairs_as_can_be() {
    let mut library = Library::new();
    let empty = with_loops(&vec![vec![]; 1 + 2 * 1_019]);
    assert_eq!(empty.len(), 4_094);
    assert_eq!(library.notification(OURS, &empty), (4, 0));
    let mut loops = vec![vec![]; 1 + 2 * 1_015];
    loops.extend([vec![], LOCATION.to_vec()]);
    let section = with_loops(&loops);
    assert_eq!(section.len(), 4_093);
    let offset = section.len() - 4 - 9;
    assert_eq!(library.notification(OURS, &section), (3, offset));
}

/// A descriptor of every tag and of lengths around those of the known ones, in each loop.
#[test]
fn every_tag_and_length_in_each_loop() {
    let mut library = Library::new();
    let mut random = Random::new(2);
    for tag in 0..=0xFF {
        let known = [0x07, 0x0E, 0x13].contains(&tag);
        for length in (0..=26).chain([252, 253, 254, 255]) {
            if !known && length % 3 != 0 {
                continue;
            }
            for turn in 0..3 {
                let mut loops = vec![vec![], vec![], LOCATION.to_vec()];
                loops[turn].extend(descriptor(tag, &random.bytes(length)));
                library.notification(OURS, &with_loops(&loops));
            }
        }
    }
}

#[test]
fn every_value_of_each_byte() {
    let mut library = Library::new();
    let targeted = descriptor(0x07, &[[0xFF; 6], OURS].concat());
    let section = with_loops(&[vec![0x80, 0], targeted, LOCATION.to_vec()]);
    for offset in 0..section.len() {
        for value in 0..=0xFF {
            let mut section = section.clone();
            section[offset] = value;
            if value % 16 == 0 {
                library.notification(OURS, &section);
            }
            seal(&mut section);
            library.notification(OURS, &section);
        }
    }
}

#[test]
fn every_set_of_faults() {
    let mut library = Library::new();
    let mut random = Random::new(3);
    for faults in subsets(&CHECKS) {
        for _ in 0..3 {
            let (device, section) = faulty(&mut random, &faults);
            let (number, _) = library.notification(device, &section);
            match faults.first() {
                Some(first) => assert_eq!(number, *first, "{faults:?}"),
                None => assert!(number == 3 || number == 4),
            }
        }
    }
}

#[test]
fn random_sections() {
    let mut library = Library::new();
    let mut random = Random::new(4);
    let mut tally = Tally::default();
    for _ in 0..30_000 {
        let (device, section) = match random.below(3) {
            0 => bytes_changed(&mut random),
            1 => {
                let fault = random.pick(&CHECKS);
                faulty(&mut random, &[fault])
            }
            _ => any_notification(&mut random),
        };
        tally.count(library.notification(device, &section).0);
    }
    tally.assert_all(CHECKS.into_iter().chain([3, 4]), 500);
}
