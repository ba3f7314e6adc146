//! The refusals.

use core::error::Error;
use core::fmt;

/// Makes the enum, its numbers and its texts from one list.
macro_rules! refusals {
    ($($number:literal $name:ident $meaning:literal)*) => {
        /// Why a call was refused. A refused call has changed nothing.
        ///
        /// ```
        /// use ccfb::{Packet, Refusal};
        ///
        /// let refusal = Packet::read(b"no packet").expect_err("nine octets");
        /// assert_eq!(refusal, Refusal::PacketTooShort);
        /// assert_eq!(refusal.to_string(), "refused 21: packet shorter than 12 octets");
        /// ```
        #[derive(Clone, Copy, Debug, PartialEq, Eq, Hash)]
        #[non_exhaustive]
        pub enum Refusal {
            $(#[doc = concat!($number, ": ", $meaning, ".")] $name,)*
            /// A number that this version of the crate does not know, from a later library.
            Unknown(u8),
        }

        impl Refusal {
            /// Every refusal that the crate knows, in the order of the numbers.
            ///
            /// ```
            /// assert_eq!(ccfb::Refusal::ALL[0], ccfb::Refusal::BadMark);
            /// ```
            pub const ALL: &'static [Refusal] = &[$(Refusal::$name),*];

            /// What it means, in words.
            ///
            /// ```
            /// assert_eq!(ccfb::Refusal::Padded.meaning(), "padding flag is set");
            /// ```
            pub fn meaning(self) -> &'static str {
                match self {
                    $(Refusal::$name => $meaning,)*
                    Refusal::Unknown(_) => "unknown refusal",
                }
            }

            /// Its number, as in C.
            ///
            /// ```
            /// assert_eq!(ccfb::Refusal::TooOld.number(), 3);
            /// ```
            pub fn number(self) -> u8 {
                match self {
                    $(Refusal::$name => $number,)*
                    Refusal::Unknown(number) => number,
                }
            }
        }
    };
}

refusals! {
    1 BadMark "ECN mark above 3"
    2 NoFreePlace "new stream, and no place is free"
    3 TooOld "sequence number too old"
    4 BadStore "not 1 to 16 places, or not 2,048 cells for each"
    5 NotHeld "no such stream, or no stream in that place"
    6 BadLimit "size limit below 24 or above 9,000"
    7 TooManyRequests "more than 16 requests"
    8 StreamRepeated "an earlier request names the same stream"
    9 BadRange "range not within the stream's window"
    10 OutputTooShort "output too short"
    11 BadFileMark "not an arrival file"
    12 BadFileVersion "arrival file of an unknown version"
    13 RecordCutShort "arrival file ends within a record"
    14 BadRecord "arrival file has a bad record"
    21 PacketTooShort "packet shorter than 12 octets"
    22 BadVersion "RTCP version is not 2"
    23 BadType "not a CCFB packet: type is not 205, or FMT not 11"
    24 BadLength "length field does not match the packet's length"
    25 Padded "padding flag is set"
    26 RunsIntoRts "report block runs into RTS"
    27 TooManyReports "num_reports above 16,384"
    28 FillerNotZero "filler is not zero"
    29 NoBlock "no such report block"
    30 NoNumber "no such sequence number in the block"
    31 BadDatagram "not a valid RTCP datagram"
    32 NoPacket "no such packet in the datagram"
    37 NotRegistered "number not registered as sent, or not in the window"
}

impl Refusal {
    /// The refusal of that number, if the crate knows it.
    ///
    /// ```
    /// use ccfb::Refusal;
    ///
    /// assert_eq!(Refusal::of_number(3), Some(Refusal::TooOld));
    /// assert_eq!(Refusal::of_number(0), None);
    /// ```
    pub fn of_number(number: u8) -> Option<Refusal> {
        Refusal::ALL.iter().copied().find(|refusal| refusal.number() == number)
    }

    /// The refusal that a call of the library answered.
    pub(crate) fn of_answer(number: u8) -> Refusal {
        Refusal::of_number(number).unwrap_or(Refusal::Unknown(number))
    }
}

impl fmt::Display for Refusal {
    fn fmt(&self, f: &mut fmt::Formatter<'_>) -> fmt::Result {
        write!(f, "refused {}: {}", self.number(), self.meaning())
    }
}

impl Error for Refusal {}

#[cfg(test)]
mod tests {
    extern crate std;

    use super::Refusal;
    use std::string::ToString;

    #[test]
    fn every_number_is_a_refusal() {
        for number in 0..=u8::MAX {
            assert_eq!(Refusal::of_answer(number).number(), number);
        }
        assert_eq!(Refusal::of_answer(3), Refusal::TooOld);
        assert_eq!(Refusal::of_answer(99).to_string(), "refused 99: unknown refusal");
    }
}
