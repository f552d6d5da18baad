//! The sender of datagram sections.

use crate::ffi;
use crate::{Refusal, Settings};

/// Cuts `unit` into datagram sections for `settings.address`, back to back from the start of
/// `output`, and gives their length in all.
///
/// Each section carries `piece_size` bytes of the unit, 1 to 4,080, the last one the rest, and has 16
/// bytes beside them. Without a piece size it is 1,008: then no section has more than 1,024 bytes,
/// which is what the field boxes of the second series hold, and a unit of more than 1,008 bytes for
/// each section of the limit (16,128 with a limit of 16) is refused with [`Refusal::Sections`].
///
/// `llc_snap` says that the unit begins with an LLC/SNAP header, which is not looked at here: any
/// bytes are sent, none at all as one section without payload. Without it the unit has to be exactly
/// one IP datagram, as long as [its header says](crate#units).
///
/// The bytes of `output` after the sections stay as they were.
///
/// ```
/// use fossknut::{Answer, Receiver, Refusal, Settings};
///
/// let address = [0x02, 0x00, 0x5E, 0x10, 0x20, 0x30];
/// let settings = Settings { address, range: 6, limit: 16 };
/// // An IPv4 datagram: bytes 2 and 3 say that it has 1,009, which is 0x03F1.
/// let header = b"\x45\x00\x03\xF1\x00\x00\x00\x00\x40\xFD\xF2\x0C\
///                \xC0\x00\x02\x01\xC0\x00\x02\x02";
/// let unit = [&header[..], &[0x55; 989]].concat();
/// let mut output = [0; 1_100];
/// let length = fossknut::send(&settings, false, None, &unit, &mut output)?;
/// assert_eq!(length, 1_024 + 17);
///
/// let mut receiver = Receiver::new(settings, vec![0; 65_535]);
/// assert_eq!(receiver.receive(&output[..1_024]), Answer::Stored);
/// assert_eq!(receiver.receive(&output[1_024..length]), Answer::Delivered(&unit));
///
/// // In one section, by a size that is given.
/// let length = fossknut::send(&settings, false, Some(4_080), &unit, &mut output)?;
/// assert_eq!(length, 1_025);
///
/// // A byte more than the header says, or less.
/// for unit in [&[&unit[..], b"!"].concat(), &unit[..1_008]] {
///     let refusal = fossknut::send(&settings, false, None, unit, &mut output);
///     assert_eq!(refusal, Err(Refusal::IpDatagram));
/// }
/// # Ok::<(), fossknut::Refusal>(())
/// ```
///
/// # Errors
///
/// The first that applies of the refusals 10, 50, 51, 54, 52 and 53, in this order; `output` is as it
/// was.
///
/// # Panics
///
/// If the library answers a number that this crate does not know, which means that the two are of
/// different versions.
pub fn send(
    settings: &Settings,
    llc_snap: bool,
    piece_size: Option<usize>,
    unit: &[u8],
    output: &mut [u8],
) -> Result<usize, Refusal> {
    let llc_snap = llc_snap.into();
    let answer = match piece_size {
        Some(size) => ffi::send(settings, llc_snap, size, unit, output),
        None => ffi::send_by_default(settings, llc_snap, unit, output),
    };
    match answer {
        (0, length) => Ok(length),
        (number, _) => Err(Refusal::answered(number)),
    }
}
