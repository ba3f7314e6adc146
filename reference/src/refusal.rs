//! The refusals, under the names and numbers of the product.

#[derive(Clone, Copy, Debug, PartialEq, Eq)]
#[repr(u8)]
pub enum Refusal {
    BadMark = 1,
    NoFreePlace = 2,
    TooOld = 3,
    BadStore = 4,
    NotHeld = 5,
    BadLimit = 6,
    TooManyRequests = 7,
    StreamRepeated = 8,
    BadRange = 9,
    OutputTooShort = 10,
    BadFileMark = 11,
    BadFileVersion = 12,
    RecordCutShort = 13,
    BadRecord = 14,
    PacketTooShort = 21,
    BadVersion = 22,
    BadType = 23,
    BadLength = 24,
    Padded = 25,
    RunsIntoRts = 26,
    TooManyReports = 27,
    FillerNotZero = 28,
    NoBlock = 29,
    NoNumber = 30,
    BadDatagram = 31,
    NoPacket = 32,
    NotRegistered = 37,
}

impl Refusal {
    pub const fn number(self) -> u8 {
        self as u8
    }
}
