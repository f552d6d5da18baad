//! A recording: sections one after the other (01, "Listing").

/// The input that 01 gives under "Listing".
pub const LISTING_OF_01: [u8; 21] = [
    0x00, 0xB0, 0x0D, 0, 0, 0, 0, 0, 0, 0, 0, 0, 0, 0, 0, 0, // thirteen 00
    0x00, 0x00, 0x00, //
    0x3E, 0xB0,
];

/// The parts of a recording that are offered as sections, with their offsets, whatever their
/// table_id: with 3 or more bytes left 3 + section_length bytes or what is left, else the rest.
pub fn offers(recording: &[u8]) -> impl Iterator<Item = (usize, &[u8])> {
    let mut offset = 0;
    std::iter::from_fn(move || {
        let start = offset;
        let rest = &recording[start..];
        let length = match rest {
            [] => return None,
            [_, high, low, ..] => 3 + ((usize::from(high & 0x0F) << 8) | usize::from(*low)),
            _ => rest.len(),
        };
        let offer = &rest[..length.min(rest.len())];
        offset += offer.len();
        Some((start, offer))
    })
}

#[cfg(test)]
mod tests {
    use super::{offers, LISTING_OF_01};

    fn cut(recording: &[u8]) -> Vec<(usize, usize)> {
        offers(recording)
            .map(|(offset, offer)| (offset, offer.len()))
            .collect()
    }

    #[test]
    fn the_listing_of_the_papers() {
        assert_eq!(cut(&LISTING_OF_01), [(0, 16), (16, 3), (19, 2)]);
    }

    #[test]
    fn the_longest_offer() {
        // READINGS A18
        let recording = [0xFF; 4_099];
        assert_eq!(cut(&recording), [(0, 4_098), (4_098, 1)]);
        assert_eq!(cut(&recording[..4_097]), [(0, 4_097)]);
    }

    #[test]
    fn nothing_in_nothing() {
        assert_eq!(cut(&[]), []);
    }
}
