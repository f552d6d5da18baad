//! Where a unit ends (02, request 3).
//!
//! Without LLC/SNAP the joined payloads begin with an IP datagram, which is the unit: it ends where
//! its header says, and what follows is stuffing. With LLC/SNAP all of the joined payloads are the
//! unit. Nothing of the header but the version and the one length is looked at (READINGS B3).

/// The shortest header of version 4 (RFC 791, section 3.1).
pub const IPV4_HEADER: usize = 20;
/// The header of version 6 (RFC 8200, section 3), which the payload length does not count.
pub const IPV6_HEADER: usize = 40;

/// The length of the unit that the joined payloads carry, with the LLC_SNAP_flag or without; none
/// where 25 applies.
pub fn unit_length(llc_snap: bool, joined: &[u8]) -> Option<usize> {
    if llc_snap {
        return Some(joined.len());
    }
    let (header, stated) = stated_length(joined)?;
    (header..=joined.len()).contains(&stated).then_some(stated)
}

/// The fewest bytes that a header of this version has, and the length that it states for its
/// datagram; none for an empty unit, a version neither 4 nor 6, and fewer bytes than the header has.
pub fn stated_length(joined: &[u8]) -> Option<(usize, usize)> {
    let version = joined.first()? >> 4;
    match version {
        4 if joined.len() >= IPV4_HEADER => Some((IPV4_HEADER, number_at(joined, 2))),
        6 if joined.len() >= IPV6_HEADER => Some((IPV6_HEADER, IPV6_HEADER + number_at(joined, 4))),
        _ => None,
    }
}

/// The number in two bytes, high byte first.
fn number_at(bytes: &[u8], offset: usize) -> usize {
    usize::from(bytes[offset]) << 8 | usize::from(bytes[offset + 1])
}

#[cfg(test)]
mod tests {
    use super::unit_length;
    use crate::generator::datagrams::beginning;

    /// The unit's length without LLC/SNAP, of that many bytes that begin so; the rest of them would
    /// state more than there is.
    fn unit_length_of(start: [u8; 6], length: usize) -> Option<usize> {
        unit_length(false, &beginning(&start, vec![0xEE; length]))
    }

    #[test]
    fn version_4_by_the_total_length() {
        for joined in 0..=300 {
            for stated in 0..=600_u16 {
                let [high, low] = stated.to_be_bytes();
                let unit = unit_length_of([0x45, 0xEE, high, low, 0xEE, 0xEE], joined);
                let length = usize::from(stated);
                let is_there = length >= 20 && length <= joined;
                let expected = is_there.then_some(length);
                assert_eq!(unit, expected, "{stated} of {joined}");
            }
        }
    }

    #[test]
    fn version_6_by_40_and_the_payload_length() {
        for joined in 0..=340 {
            for stated in 0..=600_u16 {
                let [high, low] = stated.to_be_bytes();
                let unit = unit_length_of([0x60, 0xEE, 0xEE, 0xEE, high, low], joined);
                let length = 40 + usize::from(stated);
                let expected = (length <= joined).then_some(length);
                assert_eq!(unit, expected, "{stated} of {joined}");
            }
        }
    }

    #[test]
    fn the_longest() {
        // READINGS B3: 40 + 65,535 is above any unit, and not 39.
        let version_4 = |length| unit_length_of([0x45, 0, 0xFF, 0xFF, 0, 0], length);
        let version_6 = |low| unit_length_of([0x60, 0, 0, 0, 0xFF, low], 65_535);
        assert_eq!(version_4(65_535), Some(65_535));
        assert_eq!(version_4(65_534), None);
        assert_eq!(version_6(0xD7), Some(65_535));
        assert_eq!(version_6(0xD8), None);
        assert_eq!(version_6(0xFF), None);
    }

    #[test]
    fn no_other_version_and_any_header_length() {
        for first in 0..=0xFF {
            let unit = unit_length_of([first, 0, 0, 30, 0, 10], 60);
            let expected = match first >> 4 {
                4 => Some(30),
                6 => Some(50),
                _ => None,
            };
            assert_eq!(unit, expected, "{first:02X}");
        }
    }

    #[test]
    fn all_of_it_with_the_flag() {
        for length in [0, 1, 19, 20, 39, 40, 65_535] {
            for first in [0x00, 0x45, 0x60, 0xAA] {
                let bytes = beginning(&[first, 0, 0, 20, 0, 0], vec![0; length]);
                assert_eq!(unit_length(true, &bytes), Some(length));
            }
        }
    }
}
