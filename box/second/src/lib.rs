//! The second program: what the papers ask of Fossknut, written from them alone, as plainly as can
//! be.
//!
//! The proved program is held against it. Nothing is shared with the proved program but the papers:
//! 01 and 02 are the customer's, what is to be built and what is to change; READINGS is the list of
//! how their open points are read. Speed is no aim here, save that CRC_32 is taken by tables
//! wherever it is not the question itself.

#![deny(missing_docs)]
#![forbid(unsafe_code)]

pub mod archive;
mod crc_32;
pub mod datagram;
pub mod generator;
pub mod listing;
pub mod notification;
pub mod pes;
pub mod random;
pub mod receiver;
pub mod recording;
pub mod row;
pub mod section;
pub mod sender;
pub mod tables;
pub mod tally;
pub mod telling;
pub mod vectors;

pub use crc_32::crc_32;
pub use section::check;
