//! The sender (01, "The sender"; 02, request 3): a unit cut into sections.

use crate::datagram::unit_length;
use crate::receiver::{Answer, Settings};
use crate::section::{BEFORE_LENGTH, CRC_32, HEADER, SHORTEST, TABLE_ID};
use crate::tables::slicing_by_16 as crc_32;

/// The piece size where none is given (02, request 7): a section has [`SHORTEST`] bytes beside its
/// piece, so 1,024 at most.
pub const DEFAULT_PIECE_SIZE: usize = 1_008;
/// The greatest piece size that can be given.
pub const LARGEST_PIECE_SIZE: usize = 4_080;

/// Writes the sections of `unit` to the start of `output`, or refuses to and writes nothing.
pub fn send(
    settings: &Settings,
    llc_snap: bool,
    piece_size: Option<usize>,
    unit: &[u8],
    output: &mut [u8],
) -> Answer {
    let piece_size = piece_size.unwrap_or(DEFAULT_PIECE_SIZE);
    let number = refusal(settings, llc_snap, piece_size, unit, output.len());
    if number != 0 {
        return Answer { number, length: 0 };
    }
    let last = (sections(unit.len(), piece_size) - 1) as u8;
    let mut rest = unit;
    let mut length = 0;
    for number in 0..=last {
        let (piece, after) = rest.split_at(piece_size.min(rest.len()));
        let place = &mut output[length..][..SHORTEST + piece.len()];
        write_section(place, settings.address, llc_snap, [number, last], piece);
        length += place.len();
        rest = after;
    }
    Answer { number, length }
}

/// The first refusal that applies, else 0. 54 is for a unit that a receiver would refuse with 25 or
/// cut short: it has to end where its header says, and with the LLC_SNAP_flag it always does.
fn refusal(
    settings: &Settings,
    llc_snap: bool,
    piece_size: usize,
    unit: &[u8],
    output: usize,
) -> u8 {
    let length = unit.len();
    if !settings.are_good() {
        10
    } else if !(1..=LARGEST_PIECE_SIZE).contains(&piece_size) {
        50
    } else if length > 65_535 {
        51
    } else if unit_length(llc_snap, unit) != Some(length) {
        54
    } else if sections(length, piece_size) > settings.limit {
        52
    } else if output < length + SHORTEST * sections(length, piece_size) {
        53
    } else {
        0
    }
}

/// How many sections a unit of that length takes: one also if it is empty.
fn sections(unit: usize, piece_size: usize) -> usize {
    (unit / piece_size + usize::from(unit % piece_size != 0)).max(1)
}

/// Writes one section over all of `place`, which has [`SHORTEST`] bytes more than the payload;
/// `address` as printed, `numbers` section_number and last_section_number.
pub fn write_section(
    place: &mut [u8],
    address: [u8; 6],
    llc_snap: bool,
    numbers: [u8; 2],
    payload: &[u8],
) {
    let section_length = place.len() - BEFORE_LENGTH;
    let [mac_1, mac_2, mac_3, mac_4, mac_5, mac_6] = address;
    let header: [u8; HEADER] = [
        TABLE_ID,
        0xB0 | ((section_length >> 8) & 0x0F) as u8,
        section_length as u8,
        mac_6,
        mac_5,
        0xC1 | (u8::from(llc_snap) << 1),
        numbers[0],
        numbers[1],
        mac_4,
        mac_3,
        mac_2,
        mac_1,
    ];
    let (before, field) = place.split_at_mut(place.len() - CRC_32);
    before[..HEADER].copy_from_slice(&header);
    before[HEADER..].copy_from_slice(payload);
    field.copy_from_slice(&crc_32(before).to_be_bytes());
}

#[cfg(test)]
mod tests {
    use super::*;
    use crate::generator::datagrams::{any_unit, bare_ipv4};
    use crate::generator::{rows::good_settings, OURS};
    use crate::random::Random;
    use crate::receiver::Receiver;
    use crate::recording::offers;
    use crate::telling::sendings;

    #[test]
    fn each_telling_sending_gets_its_answer() {
        for sending in sendings() {
            let mut output = vec![0; sending.output_length];
            let answer = send(
                &sending.settings,
                sending.llc_snap != 0,
                sending.piece_size,
                &sending.unit,
                &mut output,
            );
            let answer = (answer.number, answer.length);
            assert_eq!(answer, sending.answer, "{}", sending.source);
            let start = &output[..sending.output.len()];
            assert_eq!(start, sending.output, "{}", sending.source);
        }
    }

    #[test]
    fn what_is_sent_is_received() {
        let mut random = Random::new(1);
        for turn in 0..2_000 {
            let settings = good_settings(&mut random);
            let piece_size = random.between(10, 50);
            let length = random.between(0, piece_size * settings.limit);
            let llc_snap = turn % 2 == 0;
            let unit = any_unit(&mut random, llc_snap, length);
            let mut output = vec![0; unit.len() + 16 * settings.limit];
            let answer = send(&settings, llc_snap, Some(piece_size), &unit, &mut output);
            assert_eq!(answer.number, 0);
            let mut receiver = Receiver::new(settings, vec![0; unit.len()]);
            let answers: Vec<_> = offers(&output[..answer.length])
                .map(|(_, section)| receiver.receive(section))
                .collect();
            let (last, before) = answers.split_last().expect("a section at least");
            assert_eq!((last.number, last.length), (0, unit.len()));
            assert!(before.iter().all(|answer| answer.number == 1));
            assert_eq!(receiver.buffer, unit);
        }
    }

    #[test]
    fn a_section_of_the_papers() {
        // 01, "Samples on the bench"; READINGS B9
        let mut section = [0; 36];
        let unit = bare_ipv4(20);
        write_section(&mut section, OURS, false, [0, 0], &unit);
        let header = [0x3E, 0xB0, 0x21, 0x30, 0x20, 0xC1, 0, 0, 0x10, 0x5E, 0, 2];
        assert_eq!(section[..12], header);
        assert_eq!(section[12..32], unit);
    }
}
