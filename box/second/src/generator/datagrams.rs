//! IP datagrams, which a unit without LLC/SNAP has to be (02, request 3): bare ones, real ones with
//! UDP and right checksums, and payloads that begin with one, or nearly.

use crate::datagram::{IPV4_HEADER, IPV6_HEADER};
use crate::random::Random;

/// The most that a field of two bytes can say.
const MOST: usize = 0xFFFF;

/// Ports, length and checksum (RFC 768).
const UDP_HEADER: usize = 8;
/// The protocol number of UDP, which IPv6 calls a next header.
const UDP: u8 = 17;
/// The protocol number for experiments (RFC 3692).
const EXPERIMENT: u8 = 253;
/// Nothing follows that anybody reads (RFC 8200, section 4.7).
const NO_NEXT_HEADER: u8 = 59;

/// From 192.0.2.1 to 198.51.100.2, which are kept for documentation (RFC 5737).
const IPV4_ADDRESSES: [u8; 8] = [192, 0, 2, 1, 198, 51, 100, 2];
/// From 2001:db8::1 to 2001:db8::2, likewise (RFC 3849).
const IPV6_ADDRESSES: [u8; 32] = [
    0x20, 0x01, 0x0D, 0xB8, 0, 0, 0, 0, 0, 0, 0, 0, 0, 0, 0, 1, //
    0x20, 0x01, 0x0D, 0xB8, 0, 0, 0, 0, 0, 0, 0, 0, 0, 0, 0, 2,
];
/// Ports that nobody has registered.
const PORTS: [u16; 2] = [49_152, 49_153];

/// Writes a number of two bytes, high byte first.
fn put(bytes: &mut [u8], offset: usize, number: usize) {
    let number = u16::try_from(number).expect("a number of two bytes");
    bytes[offset..offset + 2].copy_from_slice(&number.to_be_bytes());
}

/// `bytes` with others at the start, as far as there is room for them.
pub fn beginning(start: &[u8], mut bytes: Vec<u8>) -> Vec<u8> {
    let length = start.len().min(bytes.len());
    bytes[..length].copy_from_slice(&start[..length]);
    bytes
}

/// 20 to 65,535 bytes, all 0 but version, header length and total length.
pub fn bare_ipv4(length: usize) -> Vec<u8> {
    let mut datagram = vec![0; length];
    datagram[0] = 0x45;
    put(&mut datagram, 2, length);
    datagram
}

/// 40 to 65,575 bytes, all 0 but version and payload length.
pub fn bare_ipv6(length: usize) -> Vec<u8> {
    let mut datagram = vec![0; length];
    datagram[0] = 0x60;
    put(&mut datagram, 4, length - IPV6_HEADER);
    datagram
}

/// An IPv4 datagram that carries `text` by UDP, with both checksums.
pub fn udp_over_ipv4(text: &[u8]) -> Vec<u8> {
    ipv4(UDP, &udp(&IPV4_ADDRESSES, text))
}

/// An IPv6 datagram that carries `text` by UDP, with its checksum; an IPv6 header has none.
pub fn udp_over_ipv6(text: &[u8]) -> Vec<u8> {
    ipv6(UDP, &udp(&IPV6_ADDRESSES, text))
}

/// An IPv4 datagram of that many bytes, if there can be one: with UDP if it has room for it, else
/// with the protocol number for experiments.
pub fn ipv4_of_length(random: &mut Random, length: usize) -> Option<Vec<u8>> {
    let after = length.checked_sub(IPV4_HEADER)?;
    (length <= MOST).then(|| match after.checked_sub(UDP_HEADER) {
        Some(text) => udp_over_ipv4(&random.bytes(text)),
        None => ipv4(EXPERIMENT, &random.bytes(after)),
    })
}

/// An IPv6 datagram of that many bytes, if there can be one: with UDP if it has room for it, else
/// with no next header.
pub fn ipv6_of_length(random: &mut Random, length: usize) -> Option<Vec<u8>> {
    let after = length.checked_sub(IPV6_HEADER)?;
    (after <= MOST).then(|| match after.checked_sub(UDP_HEADER) {
        Some(text) => udp_over_ipv6(&random.bytes(text)),
        None => ipv6(NO_NEXT_HEADER, &random.bytes(after)),
    })
}

/// A datagram of that many bytes, of either version where both can be.
///
/// # Panics
///
/// If none can be: from 20 to 65,575 bytes one can.
pub fn any_datagram(random: &mut Random, length: usize) -> Vec<u8> {
    let version_6 = random.one_in(2).then(|| ipv6_of_length(random, length));
    version_6
        .flatten()
        .or_else(|| ipv4_of_length(random, length))
        .or_else(|| ipv6_of_length(random, length))
        .expect("a length that a datagram can have")
}

/// A unit that a sender takes: with the flag that many bytes of any value; without it a datagram, of
/// that many bytes if there can be one, else of 20.
pub fn any_unit(random: &mut Random, llc_snap: bool, length: usize) -> Vec<u8> {
    if llc_snap {
        random.bytes(length)
    } else {
        any_datagram(random, length.max(IPV4_HEADER))
    }
}

fn ipv4(protocol: u8, data: &[u8]) -> Vec<u8> {
    let mut datagram = bare_ipv4(IPV4_HEADER + data.len());
    datagram[8] = 64; // time to live
    datagram[9] = protocol;
    datagram[12..IPV4_HEADER].copy_from_slice(&IPV4_ADDRESSES);
    let checksum = checksum(&datagram[..IPV4_HEADER]);
    put(&mut datagram, 10, checksum.into());
    datagram[IPV4_HEADER..].copy_from_slice(data);
    datagram
}

fn ipv6(next_header: u8, data: &[u8]) -> Vec<u8> {
    let mut datagram = bare_ipv6(IPV6_HEADER + data.len());
    datagram[6] = next_header;
    datagram[7] = 64; // hop limit
    datagram[8..IPV6_HEADER].copy_from_slice(&IPV6_ADDRESSES);
    datagram[IPV6_HEADER..].copy_from_slice(data);
    datagram
}

/// What IP carries. The checksum also covers addresses, protocol number and length; it is never 0,
/// which would say that there is none.
fn udp(addresses: &[u8], text: &[u8]) -> Vec<u8> {
    let mut datagram = vec![0; UDP_HEADER + text.len()];
    let length = datagram.len();
    for (place, number) in [(0, PORTS[0]), (2, PORTS[1])] {
        put(&mut datagram, place, number.into());
    }
    put(&mut datagram, 4, length);
    datagram[UDP_HEADER..].copy_from_slice(text);
    let covered = [addresses, &[0, UDP], &datagram[4..6], &datagram].concat();
    let checksum = match checksum(&covered) {
        0 => 0xFFFF,
        other => other,
    };
    put(&mut datagram, 6, checksum.into());
    datagram
}

/// The Internet checksum (RFC 1071): the ones' complement of the sum, in ones' complement, of
/// numbers of two bytes, a last odd byte being the high one.
fn checksum(bytes: &[u8]) -> u16 {
    let numbers = bytes
        .chunks(2)
        .map(|pair| u64::from(pair[0]) << 8 | pair.get(1).map_or(0, |&low| low.into()));
    let mut sum: u64 = numbers.sum();
    while sum > 0xFFFF {
        sum = (sum >> 16) + (sum & 0xFFFF);
    }
    !(sum as u16)
}

/// A payload of that many bytes, after what is `held` of the unit: the two together mostly begin
/// with an IP datagram, and often have stuffing after it. Only version and length are written, and
/// only where they are not held; the other bytes are of any value. Sometimes the version is another,
/// or the stated length is one that 25 meets.
pub fn going_on(random: &mut Random, held: &[u8], length: usize) -> Vec<u8> {
    let mut payload = random.repeated(length);
    let first = match held.first() {
        Some(&first) => first,
        None => any_first_byte(random),
    };
    for (place, byte) in any_fields(random, first, held.len() + length) {
        let place = place.checked_sub(held.len());
        if let Some(written) = place.and_then(|place| payload.get_mut(place)) {
            *written = byte;
        }
    }
    payload
}

/// Version 4 or 6, seldom another, and any header length.
fn any_first_byte(random: &mut Random) -> u8 {
    let any_version = random.byte() & 0xF0;
    let version = match random.below(16) {
        0 => any_version,
        1..=5 => 0x60,
        _ => 0x40,
    };
    version | (random.byte() & 0x0F)
}

/// The three bytes of a header that are looked at, each with its place.
fn any_fields(random: &mut Random, first: u8, joined: usize) -> [(usize, u8); 3] {
    let is_version_6 = first >> 4 == 6;
    let (place, field) = if is_version_6 {
        let stated = any_stated_length(random, IPV6_HEADER, joined);
        (4, stated.saturating_sub(IPV6_HEADER))
    } else {
        (2, any_stated_length(random, IPV4_HEADER, joined))
    };
    let [.., high, low] = field.min(MOST).to_be_bytes();
    [(0, first), (place, high), (place + 1, low)]
}

/// Mostly from the header's length to the joined length, often at either end; seldom beyond them.
fn any_stated_length(random: &mut Random, header: usize, joined: usize) -> usize {
    let within = random.between(header, joined.max(header));
    match random.below(16) {
        0 => header - 1,
        1 => joined + 1,
        2 => random.below(MOST + 1),
        3 => header,
        4 => joined.saturating_sub(1),
        5..=10 => joined,
        _ => within,
    }
}

#[cfg(test)]
mod tests {
    use super::*;
    use crate::datagram::unit_length;

    #[test]
    fn published_checksums() {
        // RFC 1071, section 3: the sum is ddf2.
        let numbers = [0x00, 0x01, 0xF2, 0x03, 0xF4, 0xF5, 0xF6, 0xF7];
        assert_eq!(checksum(&numbers), !0xDDF2);
        // Wikipedia, "Internet checksum": a header whose checksum is b861.
        let header = b"\x45\0\0\x73\0\0\x40\0\x40\x11\0\0\xC0\xA8\0\x01\xC0\xA8\0\xC7";
        assert_eq!(checksum(header), 0xB861);
    }

    #[test]
    fn datagrams_have_the_length_that_they_state() {
        let mut random = Random::new(1);
        let lengths = (0..200).chain([4_081, 65_534, 65_535, 65_536, 65_575, 65_576]);
        for length in lengths {
            let is_ipv4 = (20..=65_535).contains(&length);
            let is_ipv6 = (40..=65_575).contains(&length);
            let ipv4 = ipv4_of_length(&mut random, length);
            let ipv6 = ipv6_of_length(&mut random, length);
            assert_eq!((ipv4.is_some(), ipv6.is_some()), (is_ipv4, is_ipv6));
            for datagram in ipv4.iter().chain(&ipv6) {
                assert_eq!(datagram.len(), length);
                assert_eq!(unit_length(false, datagram), Some(length));
            }
        }
    }

    #[test]
    fn checksums_are_right() {
        // A sum that covers a right checksum is all ones, and so its complement is 0.
        for length in 0..100 {
            let text = vec![0xA5; length];
            let ipv4 = udp_over_ipv4(&text);
            assert_eq!(checksum(&ipv4[..20]), 0);
            for (datagram, addresses, header) in
                [(&ipv4, 12..20, 20), (&udp_over_ipv6(&text), 8..40, 40)]
            {
                let udp = &datagram[header..];
                let before = [&datagram[addresses], &[0, UDP], &udp[4..6]].concat();
                assert_eq!(checksum(&[&before, udp].concat()), 0);
                assert_eq!(udp[UDP_HEADER..], text);
            }
        }
    }

    #[test]
    fn a_udp_checksum_is_never_none() {
        let texts = (0..=0xFFFF_u16).map(u16::to_be_bytes);
        let sent: Vec<_> = texts.map(|text| udp_over_ipv4(&text)).collect();
        let given = |checksum| sent.iter().any(|datagram| datagram[26..28] == checksum);
        assert!(given([0xFF, 0xFF]) && !given([0, 0]));
    }

    #[test]
    fn any_length_that_a_datagram_can_have() {
        let mut random = Random::new(2);
        for length in (20..100).chain([65_535, 65_536, 65_575]) {
            assert_eq!(any_datagram(&mut random, length).len(), length);
        }
    }

    #[test]
    fn what_is_held_and_goes_on_is_mostly_a_datagram() {
        let mut random = Random::new(3);
        let (mut exact, mut stuffed, mut none) = (0, 0, 0);
        for turn in 0..30_000 {
            let (held, more) = (turn % 50, 50);
            let mut joined = going_on(&mut random, &[], held);
            joined.extend(going_on(&mut random, &joined, more));
            match unit_length(false, &joined) {
                Some(length) if length == joined.len() => exact += 1,
                Some(_) => stuffed += 1,
                None => none += 1,
            }
        }
        assert!(exact > 500, "{exact}");
        assert!(stuffed > 10_000, "{stuffed}");
        assert!(none > 2_000, "{none}");
    }
}
