//! The second program's values in the library's numbers and bytes.

use crate::ffi;
use second::pes::Packet;
use second::receiver::{Run, Settings};

pub(crate) fn settings(second: &Settings) -> fossknut::Settings {
    fossknut::Settings {
        address: second.address,
        range: second.range,
        limit: second.limit,
    }
}

/// Two bytes for each number, and four for what is filled.
pub(crate) fn state(second: Option<Run>) -> ffi::State {
    let two = |number: usize| u16::try_from(number).expect("two bytes").to_be_bytes();
    let four = |number: usize| u32::try_from(number).expect("four bytes").to_be_bytes();
    second.map_or_else(ffi::State::default, |run| ffi::State {
        run: 1,
        llc_snap: run.llc_snap.into(),
        next: two(run.next),
        last: two(run.last),
        filled: four(run.filled),
        address: run.address,
    })
}

/// The answer's number, and what was read.
pub(crate) fn pes(read: &Result<Packet, u8>) -> (u8, ffi::Pes) {
    let nothing = ffi::Pes {
        extended: 0,
        rated: 0,
        extension: 0,
        rate: 0,
        offset: 0,
        length: 0,
    };
    match read {
        Err(number) => (*number, nothing),
        Ok(packet) => {
            let pes = ffi::Pes {
                extended: packet.extension.is_some().into(),
                rated: packet.rate.is_some().into(),
                extension: packet.extension.unwrap_or(0).into(),
                rate: packet.rate.unwrap_or(0) as usize,
                offset: packet.data.start,
                length: packet.data.len(),
            };
            (5, pes)
        }
    }
}
