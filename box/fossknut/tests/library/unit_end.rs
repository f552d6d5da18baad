//! Where a unit ends (02, request 3): 25 of the receiver, 54 of the sender. Headers that are cut,
//! stuffing, and the order of the refusals are among the telling inputs.

use crate::pair::Memory;
use crate::sender::{self, Call};
use crate::{ffi, numbers};
use fossknut::{Answer, Refusal};
use second::generator::datagrams::udp_over_ipv6;
use second::generator::{sound, with_llc_snap, OURS};
use second::listing::SETTINGS;
use second::random::Random;
use second::receiver::Receiver;

/// A version of IP, how many bytes its header has at least, and where that states the datagram's
/// length: in two bytes at `place`, which do not count the first `uncounted` of them.
#[derive(Clone, Copy, Debug)]
struct Version {
    number: u8,
    header: usize,
    place: usize,
    uncounted: usize,
}

const VERSIONS: [Version; 2] = [
    Version {
        number: 4,
        header: 20,
        place: 2,
        uncounted: 0,
    },
    Version {
        number: 6,
        header: 40,
        place: 4,
        uncounted: 40,
    },
];

impl Version {
    /// So many bytes of any value, but that they state, as far as they reach, a datagram of this
    /// version and of `stated` bytes.
    fn stating(self, random: &mut Random, stated: usize, length: usize) -> Vec<u8> {
        let number = u16::try_from(stated - self.uncounted).expect("two bytes");
        let mut bytes = random.bytes(length.max(6));
        bytes[0] = (self.number << 4) | (bytes[0] & 0x0F);
        bytes[self.place..][..2].copy_from_slice(&number.to_be_bytes());
        bytes.truncate(length);
        bytes
    }
}

/// By each version up to 64 bytes that state each length that they can, up to one byte more than
/// there are or than a header has, and the greatest of all. `with` is given this length, the bytes,
/// and whether they begin with a datagram of that length.
fn every_stated_length(seed: u64, mut with: impl FnMut(usize, &[u8], bool)) {
    let mut random = Random::new(seed);
    for version in VERSIONS {
        for length in 0..=64 {
            let most = version.header.max(length) + 1;
            let greatest = version.uncounted + 0xFFFF;
            for stated in (version.uncounted..=most).chain([greatest]) {
                let bytes = version.stating(&mut random, stated, length);
                let is_there = (version.header..=length).contains(&stated);
                with(stated, &bytes, is_there);
            }
        }
    }
}

/// In two sections that are cut anywhere, and a buffer that has no byte more than they need: 25
/// writes nothing of the second one, and 0 all of it. With LLC/SNAP they are all the unit.
#[test]
fn every_stated_length_is_delivered_or_refused() {
    let mut memory = Memory::new();
    let mut random = Random::new(1);
    every_stated_length(2, |stated, joined, is_there| {
        let (first, rest) = joined.split_at(random.between(0, joined.len()));
        let (first, rest) = (sound(OURS, 0, 1, first), sound(OURS, 1, 1, rest));
        let mut pair = memory.pair(Receiver::new(SETTINGS, vec![0xA5; joined.len()]));
        assert_eq!(pair.receive(&first), (1, 0));
        let (answer, buffer) = if is_there {
            ((0, stated), joined.to_vec())
        } else {
            ((25, 0), pair.buffer.to_vec())
        };
        assert_eq!(pair.receive(&rest), answer);
        assert_eq!(pair.buffer, buffer);
        assert_eq!(pair.state, ffi::State::default());
        assert_eq!(pair.receive(&with_llc_snap(&first)), (1, 0));
        assert_eq!(pair.receive(&with_llc_snap(&rest)), (0, joined.len()));
    });
}

/// 54 of a unit that is not as long as it states, to the byte. With LLC/SNAP each is sent.
#[test]
fn every_stated_length_is_sent_or_refused() {
    let mut memory = sender::Memory::new();
    every_stated_length(3, |stated, unit, is_there| {
        let is_exact = is_there && stated == unit.len();
        for (llc_snap, is_sent) in [(0, is_exact), (1, true), (0x80, true)] {
            let call = Call {
                settings: SETTINGS,
                llc_snap,
                piece_size: Some(17),
                unit,
            };
            let number = if is_sent { 0 } else { 54 };
            assert_eq!(memory.around(&call).0, number, "{stated} of {}", unit.len());
        }
    });
}

/// Each bit beside version and length may be any, those of the header's length and checksum too.
#[test]
fn nothing_else_of_the_header_is_looked_at() {
    let mut memory = Memory::new();
    let mut random = Random::new(4);
    for version in VERSIONS {
        let joined = version.stating(&mut random, 50, 60);
        let length = 8 * version.place..8 * (version.place + 2);
        let is_read = |bit: &usize| (4..8).contains(bit) || length.contains(bit);
        for bit in (0..8 * joined.len()).filter(|bit| !is_read(bit)) {
            let mut joined = joined.clone();
            joined[bit / 8] ^= 1 << (bit % 8);
            let mut pair = memory.pair(Receiver::new(SETTINGS, vec![0; 60]));
            let answer = pair.receive(&sound(OURS, 0, 0, &joined));
            assert_eq!(answer, (0, 50), "bit {bit} of {version:?}");
        }
    }
}

/// Stuffing stays in the buffer, and is not handed over.
#[test]
fn the_wrapper_hands_over_the_unit_alone() {
    let datagram = udp_over_ipv6(b"knut");
    let stuffed = [&datagram[..], &[0xFF; 7]].concat();
    let mut receiver = fossknut::Receiver::new(numbers::settings(&SETTINGS), vec![0; 60]);
    let answer = receiver.receive(&sound(OURS, 0, 0, &stuffed));
    assert_eq!(answer, Answer::Delivered(&datagram));
    let answer = receiver.receive(&sound(OURS, 0, 0, &datagram[1..]));
    assert_eq!(answer, Answer::Refused(Refusal::IpHeader));
    assert_eq!(receiver.into_buffer(), [&stuffed[..], &[0]].concat());
}
