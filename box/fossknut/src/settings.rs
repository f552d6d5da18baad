//! What a receiver and a sender are set to.

/// The own address, and how sections are told and counted by it.
///
/// Any numbers may be given: [`Refusal::Settings`](crate::Refusal::Settings) is the answer to those
/// that are not good.
///
/// ```
/// let settings = fossknut::Settings {
///     address: [0x02, 0x00, 0x5E, 0x10, 0x20, 0x30],
///     range: 6,
///     limit: 16,
/// };
/// # let _ = settings;
/// ```
#[derive(Clone, Copy, Debug, PartialEq, Eq, Hash)]
pub struct Settings {
    /// The address as printed: 02:00:5E:10:20:30 begins with 0x02, which is MAC_address_1.
    pub address: [u8; 6],
    /// MAC_address_range, 1 to 6: how many bytes of the address are compared, from MAC_address_6,
    /// the last one printed, upward. With fewer than 6 the sections of several addresses are taken;
    /// a datagram is still of one of them alone.
    pub range: usize,
    /// max_sections_per_datagram, 1 to 255.
    pub limit: usize,
}
