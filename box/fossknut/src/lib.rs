//! The proved core of Fossknut for a box written in Rust: safe functions over the static library
//! `libfossknut.a`.
//!
//! [`Receiver`] joins datagram sections to units, [`send`] cuts units into sections, [`check`]
//! tells whether a section is sound; [`notification`] and [`pes`] read the other two formats of EN
//! 301 192 that the box needs.
//!
//! What these functions answer is proved, in Rattle, for every slice. This crate adds Rust's types
//! and nothing else; the calls across the boundary are in one small module. The build takes the
//! library from the folder `FOSSKNUT_LIB_DIR`, and without it from `target/staticlib` of this
//! repository, where `scripts/rust-test` leaves it.
//!
//! ```
//! // A datagram section for 02:00:5E:10:20:30 with nothing in it.
//! let mut section = vec![0x3E, 0xB0, 0x0D, 0x30, 0x20, 0xC1, 0, 0, 0x10, 0x5E, 0, 0x02];
//! let crc_32 = fossknut::crc_32(&section);
//! section.extend(crc_32.to_be_bytes());
//! assert_eq!(fossknut::check(&section), Ok(()));
//!
//! section[1] = 0x30;
//! let refusal = fossknut::check(&section).unwrap_err();
//! assert_eq!(
//!     refusal.to_string(),
//!     "15: section_syntax_indicator and private_indicator equal"
//! );
//! ```
//!
//! # Units
//!
//! A unit is what a run of sections carries. With the LLC_SNAP_flag it is all of their payloads
//! joined, whatever these are. Without it they have to begin with a whole IP datagram, and the unit
//! ends where its header says:
//!
//! | version (byte 0, bits 7 to 4) | length of the unit | at least |
//! |---|---|---|
//! | 4 (RFC 791) | the total length, bytes 2 and 3 | 20 |
//! | 6 (RFC 8200) | 40 and the payload length, bytes 4 and 5 | 40 |
//!
//! What stands after it is stuffing. Nothing else of the header is looked at, neither its own length
//! nor its checksum. A [`Receiver`] hands over the unit without the stuffing, and refuses with
//! [`Refusal::IpHeader`] what does not begin so; [`send`] takes a unit only without stuffing, and
//! refuses any other with [`Refusal::IpDatagram`].

#![deny(missing_docs, unsafe_code)]

#[allow(unsafe_code)]
mod ffi;
#[macro_use]
mod refusal;
pub mod notification;
pub mod pes;
mod receiver;
mod sender;
mod settings;

pub use receiver::{Answer, Receiver};
pub use refusal::Refusal;
pub use sender::send;
pub use settings::Settings;

/// The CRC_32 of ISO/IEC 13818-1 (elsewhere CRC-32/MPEG-2) over all of `bytes`.
///
/// Polynomial 0x04C11DB7, start 0xFFFFFFFF, high bit first, no final inversion. Over a section with
/// its CRC_32 it is 0.
///
/// ```
/// assert_eq!(fossknut::crc_32(b"123456789"), 0x0376_E6E7);
/// ```
#[must_use]
pub fn crc_32(bytes: &[u8]) -> u32 {
    ffi::crc_32(bytes)
}

/// Whether `section` is a sound datagram section of EN 301 192: `Ok` if it passes the checks 12 to
/// 19 and 24, else the first that it does not pass.
///
/// The slice has to be the whole section and nothing else, from table_id to CRC_32. To whom the
/// section is addressed is not looked at.
///
/// ```
/// use fossknut::Refusal;
///
/// fn take(section: &[u8]) -> Result<&[u8], Refusal> {
///     fossknut::check(section)?;
///     Ok(&section[12..section.len() - 4])
/// }
/// assert_eq!(take(&[0x3E; 15]), Err(Refusal::TooShort));
/// assert_eq!(take(&[0x3F; 16]), Err(Refusal::TableId));
/// assert_eq!(take(b"\x3E\x70\x0Dhas no CRC_32"), Err(Refusal::ChecksumForm));
/// ```
///
/// # Errors
///
/// The first of the refusals 12 to 19 and 24 that applies; 24 stands at 15's place.
///
/// # Panics
///
/// If the library answers a number that this crate does not know, which means that the two are of
/// different versions.
pub fn check(section: &[u8]) -> Result<(), Refusal> {
    match ffi::check(section) {
        0 => Ok(()),
        number => Err(Refusal::answered(number)),
    }
}
