//! The listing (01, "Listing"): a line for each section of a recording.

use std::io::{self, BufReader, BufWriter, Read, Write};

use crate::receiver::{Receiver, Settings};

/// The settings of the programs.
pub const SETTINGS: Settings = Settings {
    address: [0x02, 0x00, 0x5E, 0x10, 0x20, 0x30],
    range: 6,
    limit: 16,
};

/// The most bytes of one offer, 3 and the greatest number of 12 bits.
const LONGEST_OFFER: usize = 3 + 0xFFF;

/// Writes offset, answer and unit length of each offer in `input`, which may be of any length: no
/// more of it than one offer is kept. An input that cannot be read any further has ended.
///
/// # Errors
///
/// If `output` takes no more.
pub fn list(input: impl Read, output: impl Write) -> io::Result<()> {
    let mut input = BufReader::with_capacity(1 << 16, input);
    let mut lines = BufWriter::with_capacity(1 << 16, output);
    let mut receiver = Receiver::new(SETTINGS, vec![0; 65_535]);
    let mut offset = 0_u64;
    let mut offer = [0; LONGEST_OFFER];
    loop {
        let length = read_offer(&mut input, &mut offer);
        if length == 0 {
            return lines.flush();
        }
        let answer = receiver.receive(&offer[..length]);
        writeln!(lines, "{offset} {} {}", answer.number, answer.length)?;
        offset += length as u64;
    }
}

/// The length of the next offer, which is 0 at the end of the input.
fn read_offer(input: &mut impl Read, offer: &mut [u8; LONGEST_OFFER]) -> usize {
    let (start, rest) = offer.split_at_mut(3);
    let length = read_full(input, start);
    if length < 3 {
        return length;
    }
    let section_length = u16::from_be_bytes([start[1], start[2]]) & 0x0FFF;
    length + read_full(input, &mut rest[..section_length.into()])
}

/// How many bytes were read: all that `place` takes, or those up to the end of the input.
pub(crate) fn read_full(input: &mut impl Read, place: &mut [u8]) -> usize {
    let mut length = 0;
    while length < place.len() {
        match input.read(&mut place[length..]) {
            Ok(0) => break,
            Ok(read) => length += read,
            Err(error) if error.kind() == io::ErrorKind::Interrupted => {}
            Err(_) => break,
        }
    }
    length
}

#[cfg(test)]
mod tests {
    use super::*;
    use crate::generator::recordings::{named, NAMES};
    use crate::recording::{offers, LISTING_OF_01};

    /// One byte a read.
    struct Dribble<'a>(&'a [u8]);

    impl Read for Dribble<'_> {
        fn read(&mut self, place: &mut [u8]) -> io::Result<usize> {
            let length = place.len().min(1);
            self.0.read(&mut place[..length])
        }
    }

    fn listed(input: impl Read) -> String {
        let mut lines = Vec::new();
        list(input, &mut lines).expect("a vector takes all");
        String::from_utf8(lines).expect("digits and spaces")
    }

    #[test]
    fn the_listing_of_the_papers() {
        let lines = "0 13 0\n16 12 0\n19 12 0\n";
        assert_eq!(listed(&LISTING_OF_01[..]), lines);
        assert_eq!(listed(Dribble(&LISTING_OF_01)), lines);
        assert_eq!(listed(&[][..]), "");
    }

    #[test]
    fn as_the_recording_is_cut() {
        for name in NAMES {
            let recording = named(name).expect("a name of the list");
            let recording = &recording[..recording.len().min(200_000)];
            let mut receiver = Receiver::new(SETTINGS, vec![0; 65_535]);
            let mut lines = String::new();
            for (offset, offer) in offers(recording) {
                let answer = receiver.receive(offer);
                lines += &format!("{offset} {} {}\n", answer.number, answer.length);
            }
            assert!(listed(recording) == lines, "{name}");
        }
    }

    #[test]
    fn every_answer_that_a_listing_can_give() {
        let recording = named("every-answer").expect("a name of the list");
        let lines = listed(&recording[..]);
        for number in (0..=2).chain(12..=22).chain([24, 25]) {
            let given = |line: &str| line.split(' ').nth(1) == Some(&number.to_string());
            assert!(lines.lines().any(given), "{number} in\n{lines}");
        }
    }
}
