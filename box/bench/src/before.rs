//! The INT reader of an earlier state of the project, which `scripts/bench COMMIT` links beside this
//! one, under another name.

#[link(name = "before", kind = "static")]
extern "C" {
    fn before_notification(
        mac1: u8,
        mac2: u8,
        mac3: u8,
        mac4: u8,
        mac5: u8,
        mac6: u8,
        section: *const u8,
        section_length: usize,
        offset: *mut usize,
    ) -> u8;
}

/// The answer's number, and the offset of the location.
pub fn notification(device: [u8; 6], section: &[u8]) -> (u8, usize) {
    let [mac1, mac2, mac3, mac4, mac5, mac6] = device;
    let (bytes, length) = (section.as_ptr(), section.len());
    let mut offset = usize::MAX;
    // SAFETY: pointer and length are those of one slice, which is only read, and the other pointer
    // is that of a number; none is kept.
    let number = unsafe {
        before_notification(
            mac1,
            mac2,
            mac3,
            mac4,
            mac5,
            mac6,
            bytes,
            length,
            &mut offset,
        )
    };
    (number, offset)
}
