//! What feedback says of one sequence number.

use crate::{raw, Refusal, Time};
use core::fmt;
use core::time::Duration;

/// An ECN mark (RFC 3168).
///
/// ```
/// use ccfb::{Mark, Refusal};
///
/// assert_eq!(Mark::try_from(2), Ok(Mark::Ect0));
/// assert_eq!(Mark::try_from(4), Err(Refusal::BadMark));
/// assert_eq!(Mark::Ect0.to_string(), "ECT(0)");
/// ```
#[derive(Clone, Copy, Debug, PartialEq, Eq, Hash)]
#[repr(u8)]
pub enum Mark {
    /// 0: the sender does not use ECN.
    NotEct = 0,
    /// 1: ECT(1), as L4S uses it.
    Ect1 = 1,
    /// 2: ECT(0).
    Ect0 = 2,
    /// 3: ECN-CE, a node on the way met congestion.
    Ce = 3,
}

impl Mark {
    /// Its number, the two bits of the ECN field.
    ///
    /// ```
    /// assert_eq!(ccfb::Mark::Ce.number(), 3);
    /// ```
    pub fn number(self) -> u8 {
        self as u8
    }

    /// The mark in the lower two bits.
    pub(crate) fn of_bits(bits: u8) -> Mark {
        match bits & 3 {
            0 => Mark::NotEct,
            1 => Mark::Ect1,
            2 => Mark::Ect0,
            _ => Mark::Ce,
        }
    }
}

impl TryFrom<u8> for Mark {
    type Error = Refusal;

    fn try_from(number: u8) -> Result<Mark, Refusal> {
        match number {
            0..=3 => Ok(Mark::of_bits(number)),
            _ => Err(Refusal::BadMark),
        }
    }
}

impl fmt::Display for Mark {
    fn fmt(&self, f: &mut fmt::Formatter<'_>) -> fmt::Result {
        f.pad(match self {
            Mark::NotEct => "not-ECT",
            Mark::Ect1 => "ECT(1)",
            Mark::Ect0 => "ECT(0)",
            Mark::Ce => "CE",
        })
    }
}

/// The kinds of metric as numbers, as [`Block::decode_metrics`](crate::Block::decode_metrics)
/// writes them, and that of a [`Status`](crate::Status) which no metric has, as `ccfb_status` in C
/// gives it.
pub mod kind {
    /// [`Metric::NotReceived`](crate::Metric::NotReceived).
    pub const NOT_RECEIVED: u8 = 0;
    /// [`Metric::Received`](crate::Metric::Received): the only kind with an offset.
    pub const RECEIVED: u8 = 1;
    /// [`Metric::OverRange`](crate::Metric::OverRange).
    pub const OVER_RANGE: u8 = 2;
    /// [`Metric::NoTime`](crate::Metric::NoTime).
    pub const NO_TIME: u8 = 3;
    /// [`Status::NotReported`](crate::Status::NotReported): no metric is of this kind.
    pub const NOT_REPORTED: u8 = 4;
}

/// What a metric says of one sequence number. Only one of the four kinds has an offset, so "over
/// range" and "no time" cannot be taken for a delay.
#[derive(Clone, Copy, Debug, PartialEq, Eq, Hash)]
pub enum Metric {
    /// The number was not received.
    NotReceived,
    /// It was received, this long before RTS.
    Received {
        /// The first copy's mark, or [`Mark::Ce`] if any copy carried it.
        mark: Mark,
        /// The arrival time offset in 1/1024 s, 0 to 8189.
        offset: u16,
    },
    /// It was received, longer before RTS than an offset can say.
    OverRange {
        /// As above.
        mark: Mark,
    },
    /// It was received at an unknown time, or after RTS.
    NoTime {
        /// As above.
        mark: Mark,
    },
}

impl Metric {
    /// The mark, if the number was received.
    ///
    /// ```
    /// use ccfb::{decode_metric, Mark};
    ///
    /// assert_eq!(decode_metric(0xfffe).mark(), Some(Mark::Ce));
    /// assert_eq!(decode_metric(0x0000).mark(), None);
    /// ```
    pub fn mark(self) -> Option<Mark> {
        match self {
            Metric::NotReceived => None,
            Metric::Received { mark, .. }
            | Metric::OverRange { mark }
            | Metric::NoTime { mark } => Some(mark),
        }
    }

    /// How long before RTS the number arrived, if the metric says so.
    ///
    /// ```
    /// use ccfb::decode_metric;
    /// use std::time::Duration;
    ///
    /// assert_eq!(decode_metric(0xc200).before_rts(), Some(Duration::from_millis(500)));
    /// assert_eq!(decode_metric(0xfffe).before_rts(), None);
    /// ```
    pub fn before_rts(self) -> Option<Duration> {
        match self {
            Metric::Received { offset, .. } => Some(Duration::from_secs(offset.into()) / 1_024),
            _ => None,
        }
    }
}

/// The 16-bit metric of a number that arrived with this mark at this time, for a report at `rts`.
///
/// ```
/// use ccfb::{encode_metric, Mark, Time};
///
/// assert_eq!(encode_metric(Mark::Ect0, Time::At(0x0004_8000), 0x0005_0000), 0xc200);
/// assert_eq!(encode_metric(Mark::Ce, Time::Unknown, 0x0005_0000), 0xffff);
/// ```
pub fn encode_metric(mark: Mark, time: Time, rts: u32) -> u16 {
    raw::encode_metric(mark, time, rts)
}

/// What a 16-bit metric says.
///
/// ```
/// use ccfb::{decode_metric, Mark, Metric};
///
/// assert_eq!(decode_metric(0x7fff), Metric::NotReceived);
/// assert_eq!(decode_metric(0xbffd), Metric::Received { mark: Mark::Ect1, offset: 8_189 });
/// assert_eq!(decode_metric(0xfffe), Metric::OverRange { mark: Mark::Ce });
/// ```
pub fn decode_metric(metric: u16) -> Metric {
    raw::decode_metric(metric)
}
