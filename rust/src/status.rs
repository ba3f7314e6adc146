//! What is known of a sent packet.

use crate::Mark;
use core::fmt;

/// The bits of a time that count fractions of a second.
const FRACTION_BITS: u32 = 16;

const MILLISECONDS_OF_A_SECOND: u32 = 1_000;

/// What is known of a sent packet, from all feedback that was taken in.
///
/// ```
/// use ccfb::{Mark, Status};
///
/// let received = Status::Received { mark: Mark::Ce, time: 0x0004_8000 };
/// assert_eq!(received.to_string(), "received at 4.500 s, CE");
/// assert_eq!(Status::OverRange { mark: Mark::Ect1 }.to_string(), "received, over range, ECT(1)");
/// assert_eq!(Status::NoTime { mark: Mark::Ect1 }.to_string(), "received, no time, ECT(1)");
/// assert_eq!(Status::Missing.to_string(), "missing");
/// assert_eq!(Status::NotReported.to_string(), "not reported yet");
/// ```
#[derive(Clone, Copy, Debug, PartialEq, Eq, Hash)]
pub enum Status {
    /// No feedback has named the number yet.
    NotReported,
    /// All feedback that named the number says that it was not received. It may still arrive.
    Missing,
    /// It was received, at a known time.
    Received {
        /// The mark in the last feedback that says "received".
        mark: Mark,
        /// When it arrived, by the receiver's clock: a count of 1/65536 s modulo 2^32, RTS minus 64
        /// times the arrival time offset. It is exact to 1/1024 s.
        time: u32,
    },
    /// It was received, longer before RTS than an offset can say.
    OverRange {
        /// The mark in the last feedback that says "received".
        mark: Mark,
    },
    /// It was received at a time that the receiver does not know, or after RTS.
    NoTime {
        /// The mark in the last feedback that says "received".
        mark: Mark,
    },
}

impl Status {
    /// Whether the number is known to be received, with or without a time.
    ///
    /// ```
    /// use ccfb::{Mark, Status};
    ///
    /// assert!(Status::NoTime { mark: Mark::NotEct }.is_received());
    /// assert!(!Status::NotReported.is_received());
    /// ```
    pub fn is_received(self) -> bool {
        self.mark().is_some()
    }

    /// The mark, if the number was received.
    ///
    /// ```
    /// use ccfb::{Mark, Status};
    ///
    /// assert_eq!(Status::OverRange { mark: Mark::Ce }.mark(), Some(Mark::Ce));
    /// assert_eq!(Status::Missing.mark(), None);
    /// ```
    pub fn mark(self) -> Option<Mark> {
        match self {
            Status::NotReported | Status::Missing => None,
            Status::Received { mark, .. }
            | Status::OverRange { mark }
            | Status::NoTime { mark } => Some(mark),
        }
    }

    /// When it arrived, if that is known. `later.wrapping_sub(earlier) as i32` is how far two
    /// arrivals are apart, and negative if they arrived the other way round. Where the sender's
    /// clock is not the receiver's, only such differences mean anything.
    ///
    /// ```
    /// use ccfb::{Mark, Status};
    ///
    /// let mark = Mark::Ect1;
    /// let earlier = Status::Received { mark, time: 0xffff_ffc0 }.time().expect("a time");
    /// let later = Status::Received { mark, time: 0x0000_0040 }.time().expect("a time");
    /// assert_eq!(later.wrapping_sub(earlier) as i32, 128); // 1/512 s
    /// assert_eq!(earlier.wrapping_sub(later) as i32, -128);
    /// assert_eq!(Status::NoTime { mark }.time(), None);
    /// ```
    pub fn time(self) -> Option<u32> {
        match self {
            Status::Received { time, .. } => Some(time),
            _ => None,
        }
    }
}

impl fmt::Display for Status {
    fn fmt(&self, f: &mut fmt::Formatter<'_>) -> fmt::Result {
        match self {
            Status::NotReported => f.write_str("not reported yet"),
            Status::Missing => f.write_str("missing"),
            Status::Received { mark, time } => {
                let (seconds, milliseconds) = (time >> FRACTION_BITS, milliseconds_of(*time));
                write!(f, "received at {seconds}.{milliseconds:03} s, {mark}")
            }
            Status::OverRange { mark } => write!(f, "received, over range, {mark}"),
            Status::NoTime { mark } => write!(f, "received, no time, {mark}"),
        }
    }
}

/// The fraction of a second of a time, rounded down to 1/1000 s.
fn milliseconds_of(time: u32) -> u32 {
    let fraction = time & ((1 << FRACTION_BITS) - 1);
    (fraction * MILLISECONDS_OF_A_SECOND) >> FRACTION_BITS
}
