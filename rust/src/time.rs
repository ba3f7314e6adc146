//! When a packet arrived.

#[cfg(feature = "std")]
use std::time::{SystemTime, UNIX_EPOCH};

/// The NTP seconds at the start of 1970.
const NTP_SECONDS_AT_1970: u32 = 2_208_988_800;

const NANOSECONDS_OF_A_SECOND: u32 = 1_000_000_000;

/// The bits of a time that count fractions of a second.
const FRACTION_BITS: u32 = 16;

/// When a packet arrived, by the clock that RTS is taken from.
///
/// ```
/// use ccfb::Time;
///
/// assert_eq!(Time::from(Some(7)), Time::At(7));
/// assert_eq!(Option::from(Time::Unknown), None::<u32>);
/// ```
#[derive(Clone, Copy, Debug, PartialEq, Eq, Hash)]
pub enum Time {
    /// It arrived at an unknown time.
    Unknown,
    /// A count of 1/65536 s, as [`ntp_time`](crate::ntp_time) makes it of a clock's time.
    At(u32),
}

impl Time {
    /// The time that many seconds and nanoseconds after the start of 1970, rounded down to
    /// 1/65536 s.
    ///
    /// ```
    /// use ccfb::Time;
    ///
    /// assert_eq!(Time::from_unix(0, 500_000_000), Time::At(0x7e80_8000));
    /// ```
    pub const fn from_unix(seconds: i64, nanoseconds: u32) -> Time {
        Time::At(ntp_time_from_unix(seconds, nanoseconds))
    }
}

impl From<Option<u32>> for Time {
    fn from(time: Option<u32>) -> Time {
        time.map_or(Time::Unknown, Time::At)
    }
}

impl From<Time> for Option<u32> {
    fn from(time: Time) -> Option<u32> {
        match time {
            Time::Unknown => None,
            Time::At(count) => Some(count),
        }
    }
}

/// As [`ntp_time`].
#[cfg(feature = "std")]
impl From<SystemTime> for Time {
    fn from(time: SystemTime) -> Time {
        Time::At(ntp_time(time))
    }
}

/// The middle 32 bits of the NTP timestamp of a time, rounded down to 1/65536 s. RTS is such a
/// count, and so is a [`Time::At`].
///
/// RTS is of the same clock as the NTP timestamps in the sender's reports. If that clock is set
/// between an arrival and its report, the offset changes by as much: let the clock be slewed.
///
/// ```
/// use ccfb::{ntp_time, Time};
/// use std::time::{Duration, UNIX_EPOCH};
///
/// // 3 s and 250 ms after the start of 2026.
/// let time = UNIX_EPOCH + Duration::from_millis(1_767_225_603_250);
/// assert_eq!(ntp_time(time), 0x3783_4000);
/// assert_eq!(Time::from(time), Time::At(0x3783_4000));
/// assert_eq!(ntp_time(UNIX_EPOCH), 0x7e80_0000);
/// assert_eq!(ntp_time(UNIX_EPOCH - Duration::from_millis(250)), 0x7e7f_c000);
/// ```
#[cfg(feature = "std")]
pub fn ntp_time(time: SystemTime) -> u32 {
    match time.duration_since(UNIX_EPOCH) {
        Ok(after) => ntp_count(after.as_secs() as u32, after.subsec_nanos()),
        Err(before) => {
            let before = before.duration();
            let seconds = 0_u32.wrapping_sub(before.as_secs() as u32);
            match before.subsec_nanos() {
                0 => ntp_count(seconds, 0),
                part => ntp_count(seconds.wrapping_sub(1), NANOSECONDS_OF_A_SECOND - part),
            }
        }
    }
}

/// As [`ntp_time`], for a clock that counts seconds and nanoseconds since the start of 1970: a
/// `timespec` of `CLOCK_REALTIME`, for instance. Nanoseconds of a second or more are carried over.
///
/// ```
/// use ccfb::ntp_time_from_unix;
///
/// assert_eq!(ntp_time_from_unix(0, 0), 0x7e80_0000);
/// assert_eq!(ntp_time_from_unix(0, 15_258), 0x7e80_0000);
/// assert_eq!(ntp_time_from_unix(0, 15_259), 0x7e80_0001);
/// assert_eq!(ntp_time_from_unix(-1, 750_000_000), 0x7e7f_c000);
/// ```
pub const fn ntp_time_from_unix(seconds: i64, nanoseconds: u32) -> u32 {
    ntp_count(seconds as u32, nanoseconds)
}

/// Of the seconds since 1970 only the lower 16 bits are in the result.
const fn ntp_count(seconds: u32, nanoseconds: u32) -> u32 {
    let whole = seconds.wrapping_add(NTP_SECONDS_AT_1970) << FRACTION_BITS;
    let fraction = ((nanoseconds as u64) << FRACTION_BITS) / NANOSECONDS_OF_A_SECOND as u64;
    whole.wrapping_add(fraction as u32)
}
