//! The boundary to the static library, and the only unsafe code of this crate.
//!
//! No compiler checks these declarations against the library, so `scripts/boundary` does: a `&[u8]`
//! there is two arguments here, pointer and length, and a `&mut [u8; 16]` one pointer. The functions
//! behind them are for any numbers and bytes, good or not; the tests call them with such as the
//! wrapper never makes.

use crate::Settings;

extern "C" {
    fn fossknut_crc_32(bytes: *const u8, length: usize) -> u32;
    fn fossknut_check(section: *const u8, length: usize) -> u8;
    fn fossknut_receive(
        mac1: u8,
        mac2: u8,
        mac3: u8,
        mac4: u8,
        mac5: u8,
        mac6: u8,
        range: usize,
        limit: usize,
        state: *mut [u8; 16],
        section: *const u8,
        section_length: usize,
        buffer: *mut u8,
        buffer_length: usize,
        length: *mut usize,
    ) -> u8;
    fn fossknut_gap(state: *mut [u8; 16]);
    fn fossknut_send(
        mac1: u8,
        mac2: u8,
        mac3: u8,
        mac4: u8,
        mac5: u8,
        mac6: u8,
        range: usize,
        limit: usize,
        llc_snap: u8,
        size: usize,
        unit: *const u8,
        unit_length: usize,
        out: *mut u8,
        out_length: usize,
        length: *mut usize,
    ) -> u8;
    fn fossknut_send_by_default(
        mac1: u8,
        mac2: u8,
        mac3: u8,
        mac4: u8,
        mac5: u8,
        mac6: u8,
        range: usize,
        limit: usize,
        llc_snap: u8,
        unit: *const u8,
        unit_length: usize,
        out: *mut u8,
        out_length: usize,
        length: *mut usize,
    ) -> u8;
    fn fossknut_notification(
        mac1: u8,
        mac2: u8,
        mac3: u8,
        mac4: u8,
        mac5: u8,
        mac6: u8,
        section: *const u8,
        section_length: usize,
        offset: *mut usize,
    ) -> u8;
    fn fossknut_pes(
        packet: *const u8,
        packet_length: usize,
        extended: *mut u8,
        rated: *mut u8,
        extension: *mut usize,
        rate: *mut usize,
        offset: *mut usize,
        length: *mut usize,
    ) -> u8;
}

/// Calls a function whose first six arguments are the bytes of an address.
macro_rules! with_address {
    ($address:expr, $function:ident($($argument:expr),* $(,)?)) => {{
        let [mac1, mac2, mac3, mac4, mac5, mac6] = $address;
        $function(mac1, mac2, mac3, mac4, mac5, mac6, $($argument),*)
    }};
}

/// What a number holds that the library has to write, whatever it answers.
const UNWRITTEN: usize = usize::MAX;

/// A receiver's state in the library's sixteen bytes, under their names: idle where `run` is 0, the
/// flag set where `llc_snap` is not. Numbers stand high byte first, the address as printed.
///
/// Any bytes may be given. Those that the library gives back are a state's: `run` and `llc_snap` are
/// 0 or 1, and beside a `run` of 0 all are 0. So answer 2, which leaves the state as given,
/// rewrites bytes that no state has: 7 in `run` becomes 1.
#[repr(C)]
#[derive(Clone, Copy, Debug, Default, PartialEq, Eq)]
pub(crate) struct State {
    pub(crate) run: u8,
    pub(crate) llc_snap: u8,
    pub(crate) next: [u8; 2],
    pub(crate) last: [u8; 2],
    pub(crate) filled: [u8; 4],
    /// The full address of the run's number 0.
    pub(crate) address: [u8; 6],
}

impl State {
    /// The sixteen bytes, to lend to the library.
    fn bytes(&mut self) -> *mut [u8; 16] {
        // Fields of single bytes leave no gap between them.
        const _: () = assert!(std::mem::size_of::<State>() == 16);
        let state: *mut Self = self;
        state.cast()
    }
}

pub(crate) fn crc_32(bytes: &[u8]) -> u32 {
    // SAFETY: pointer and length are those of one slice, which is only read, and only during the
    // call.
    unsafe { fossknut_crc_32(bytes.as_ptr(), bytes.len()) }
}

pub(crate) fn check(section: &[u8]) -> u8 {
    // SAFETY: as above.
    unsafe { fossknut_check(section.as_ptr(), section.len()) }
}

/// The answer's number, and the length of the unit. At the last number of a run without LLC/SNAP both
/// depend on what `buffer` holds before the filled length: it has to be the buffer with which the
/// state was made.
pub(crate) fn receive(
    settings: &Settings,
    state: &mut State,
    section: &[u8],
    buffer: &mut [u8],
) -> (u8, usize) {
    let mut length = UNWRITTEN;
    // SAFETY: each pointer and length are those of one slice, and the other pointers those of a state
    // and a number; no two of them overlap, and none is kept. `section` is only read.
    let number = unsafe {
        with_address!(
            settings.address,
            fossknut_receive(
                settings.range,
                settings.limit,
                state.bytes(),
                section.as_ptr(),
                section.len(),
                buffer.as_mut_ptr(),
                buffer.len(),
                &mut length,
            )
        )
    };
    (number, length)
}

pub(crate) fn gap(state: &mut State) {
    // SAFETY: a pointer to a state, which is not kept.
    unsafe { fossknut_gap(state.bytes()) }
}

/// The answer's number, and the length of the sections. `llc_snap` is set where it is not 0.
pub(crate) fn send(
    settings: &Settings,
    llc_snap: u8,
    size: usize,
    unit: &[u8],
    output: &mut [u8],
) -> (u8, usize) {
    let mut length = UNWRITTEN;
    // SAFETY: as for `receive`; `unit` is only read.
    let number = unsafe {
        with_address!(
            settings.address,
            fossknut_send(
                settings.range,
                settings.limit,
                llc_snap,
                size,
                unit.as_ptr(),
                unit.len(),
                output.as_mut_ptr(),
                output.len(),
                &mut length,
            )
        )
    };
    (number, length)
}

/// [`send`] by the library's own piece size.
pub(crate) fn send_by_default(
    settings: &Settings,
    llc_snap: u8,
    unit: &[u8],
    output: &mut [u8],
) -> (u8, usize) {
    let mut length = UNWRITTEN;
    // SAFETY: as for `send`.
    let number = unsafe {
        with_address!(
            settings.address,
            fossknut_send_by_default(
                settings.range,
                settings.limit,
                llc_snap,
                unit.as_ptr(),
                unit.len(),
                output.as_mut_ptr(),
                output.len(),
                &mut length,
            )
        )
    };
    (number, length)
}

/// The answer's number, and where in the section the nine bytes are.
pub(crate) fn notification(device: [u8; 6], section: &[u8]) -> (u8, usize) {
    let mut offset = UNWRITTEN;
    // SAFETY: pointer and length are those of one slice, which is only read, and the other pointer
    // is that of a number; neither is kept.
    let number = unsafe {
        with_address!(
            device,
            fossknut_notification(section.as_ptr(), section.len(), &mut offset)
        )
    };
    (number, offset)
}

/// What the library reads from a PES data packet: the data part is `length` bytes from `offset` on.
#[derive(Clone, Copy, Debug, PartialEq, Eq)]
pub(crate) struct Pes {
    pub(crate) extended: u8,
    pub(crate) rated: u8,
    pub(crate) extension: usize,
    pub(crate) rate: usize,
    pub(crate) offset: usize,
    pub(crate) length: usize,
}

/// The answer's number, and what was read.
pub(crate) fn pes(packet: &[u8]) -> (u8, Pes) {
    let mut pes = Pes {
        extended: u8::MAX,
        rated: u8::MAX,
        extension: UNWRITTEN,
        rate: UNWRITTEN,
        offset: UNWRITTEN,
        length: UNWRITTEN,
    };
    // SAFETY: as for `notification`.
    let number = unsafe {
        fossknut_pes(
            packet.as_ptr(),
            packet.len(),
            &mut pes.extended,
            &mut pes.rated,
            &mut pes.extension,
            &mut pes.rate,
            &mut pes.offset,
            &mut pes.length,
        )
    };
    (number, pes)
}
