//! The archive sender (01, "The sender"): standard input as one unit, cut into sections.
//!
//! Its sections have no LLC/SNAP (READINGS B8), so the unit has to be one IP datagram.

use std::io::{self, Read, Write};

use crate::listing::{read_full, SETTINGS};
use crate::sender::send;

/// The piece size that it counts on, and so gives itself (02, request 7).
const PIECE_SIZE: usize = 4_080;

/// One byte more than the longest unit, so that a longer one is seen to be so.
const LONGEST_INPUT: usize = 65_535 + 1;

/// Writes the sections to `output`, or only the number of the refusal to `errors`.
///
/// # Errors
///
/// If `output` or `errors` takes no more.
pub fn archive(
    mut input: impl Read,
    mut output: impl Write,
    mut errors: impl Write,
) -> io::Result<()> {
    let mut unit = vec![0; LONGEST_INPUT];
    let length = read_full(&mut input, &mut unit);
    let mut sections = vec![0; LONGEST_INPUT + 16 * SETTINGS.limit];
    let unit = &unit[..length];
    let answer = send(&SETTINGS, false, Some(PIECE_SIZE), unit, &mut sections);
    if answer.number != 0 {
        return writeln!(errors, "{}", answer.number);
    }
    output.write_all(&sections[..answer.length])?;
    output.flush()
}

#[cfg(test)]
mod tests {
    use super::archive;
    use crate::generator::datagrams::{bare_ipv4, bare_ipv6};

    /// What is written to output and errors.
    fn archived(unit: &[u8]) -> (usize, String) {
        let (mut output, mut errors) = (Vec::new(), Vec::new());
        archive(unit, &mut output, &mut errors).expect("vectors take all");
        let errors = String::from_utf8(errors).expect("a number");
        (output.len(), errors)
    }

    fn refused(number: u8) -> (usize, String) {
        (0, format!("{number}\n"))
    }

    #[test]
    fn the_lengths_of_the_readings() {
        // READINGS A20, A21, B13
        for (length, sections) in [(20, 1), (4_080, 1), (4_081, 2), (16_129, 4), (65_280, 16)] {
            let sent = (length + 16 * sections, String::new());
            assert_eq!(archived(&bare_ipv4(length)), sent);
        }
        assert_eq!(archived(&bare_ipv6(40)), (56, String::new()));
        assert_eq!(archived(&bare_ipv4(65_281)), refused(52));
        assert_eq!(archived(&bare_ipv6(65_535)), refused(52));
        assert_eq!(archived(&bare_ipv6(65_536)), refused(51));
        assert_eq!(archived(&[0x45; 200_000]), refused(51));
    }

    #[test]
    fn what_is_not_one_datagram() {
        // READINGS B7, B8
        let datagram = bare_ipv4(1_008);
        assert_eq!(archived(&[]), refused(54));
        assert_eq!(archived(b"hello\n"), refused(54));
        assert_eq!(archived(&datagram[..1_007]), refused(54));
        assert_eq!(archived(&[&datagram[..], &[0]].concat()), refused(54));
        assert_eq!(archived(&[0; 65_535]), refused(54));
        assert_eq!(archived(&[0; 65_536]), refused(51));
    }
}
