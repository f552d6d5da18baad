//! Why something is refused.

/// Defines a type of refusals by their numbers and meanings, which are its documentation, too.
macro_rules! refusals {
    ($(#[$meta:meta])* $name:ident { $($refusal:ident = $number:literal, $meaning:literal;)+ }) => {
        $(#[$meta])*
        #[derive(Clone, Copy, Debug, PartialEq, Eq, Hash)]
        #[non_exhaustive]
        #[repr(u8)]
        pub enum $name {
            $(
                #[doc = concat!(stringify!($number), ": ", $meaning, ".")]
                $refusal = $number,
            )+
        }

        impl $name {
            /// Every refusal, in the order of their numbers.
            pub const ALL: &'static [$name] = &[$($name::$refusal),+];

            /// The refusal that has this number, if there is one.
            #[must_use]
            pub fn from_number(number: u8) -> Option<Self> {
                Self::ALL
                    .iter()
                    .copied()
                    .find(|refusal| refusal.number() == number)
            }

            /// The number that the papers give it.
            #[must_use]
            pub fn number(self) -> u8 {
                self as u8
            }

            /// What is wrong, without the number.
            #[must_use]
            pub fn meaning(self) -> &'static str {
                match self {
                    $($name::$refusal => $meaning,)+
                }
            }

            /// The refusal that the library means by this number, which is no other answer.
            pub(crate) fn answered(number: u8) -> Self {
                Self::from_number(number).unwrap_or_else(|| {
                    panic!("libfossknut.a is of another version: it answers {number}")
                })
            }
        }

        impl std::fmt::Display for $name {
            fn fmt(&self, f: &mut std::fmt::Formatter<'_>) -> std::fmt::Result {
                write!(f, "{}: {}", self.number(), self.meaning())
            }
        }

        impl std::error::Error for $name {}
    };
}

refusals! {
    /// Why a section is not taken, 10 to 25, or a unit not sent, 10 and 50 to 54: the first that
    /// applies. 24 stands at 15's place, before 16: a section in the checksum form of ISO/IEC
    /// 13818-6 has no CRC_32, and its last four bytes are not looked at. 54 stands before 52: what it
    /// and 25 ask of a unit the [crate's page](crate#units) says.
    ///
    /// Prints as its number and meaning:
    ///
    /// ```
    /// use fossknut::Refusal;
    ///
    /// let refusal = fossknut::check(&[]).unwrap_err();
    /// assert_eq!(refusal, Refusal::TooShort);
    /// assert_eq!(refusal.number(), 12);
    /// assert_eq!(refusal.to_string(), "12: fewer than 16 bytes");
    /// assert_eq!(Refusal::from_number(12), Some(refusal));
    /// assert_eq!(Refusal::from_number(0), None);
    /// ```
    Refusal {
        Settings = 10, "range not 1..6, or section limit not 1..255";
        State = 11, "state neither idle nor good";
        TooShort = 12, "fewer than 16 bytes";
        TableId = 13, "table_id not 0x3E";
        SectionLength = 14, "section_length over 4,093, or not the slice's length minus 3";
        Indicators = 15, "section_syntax_indicator and private_indicator equal";
        Crc32 = 16, "CRC_32 wrong";
        CurrentNextIndicator = 17, "current_next_indicator 0";
        SectionNumber = 18, "section_number above last_section_number";
        AddressScrambling = 19, "address scrambling not 00";
        PayloadScrambling = 20, "payload scrambling not 00";
        LastSectionNumber = 21, "last_section_number + 1 above the section limit";
        Continuation = 22, "neither number 0 nor the right continuation";
        Room = 23, "filled length and payload above room";
        ChecksumForm = 24, "checksum form: section_syntax_indicator 0, private_indicator 1";
        IpHeader = 25, "no LLC/SNAP, and the joined payloads do not begin with a whole IP datagram";
        PieceSize = 50, "piece size not 1..4,080";
        Unit = 51, "unit over 65,535";
        Sections = 52, "more sections than the limit";
        Output = 53, "output buffer shorter than the sections";
        IpDatagram = 54, "no LLC/SNAP, and the unit is not exactly one IP datagram";
    }
}
