//! The limits of the library, as in the C header.

use core::ops::RangeInclusive;

/// The most places that a store may have.
pub const MOST_PLACES: usize = 16;

/// The cells of a place, one for each number of its stream's window.
pub const CELLS_OF_A_PLACE: usize = 2_048;

/// The most numbers that one arrival may [pass over](crate::ArrivalKind::Ahead).
pub const MOST_PASSED_OVER: u16 = 32_766;

/// The size limits that a [`Report`](crate::Report) may have, in octets.
pub const LIMITS: RangeInclusive<usize> = 24..=9_000;

/// The most requests that one report may have.
pub const MOST_REQUESTS: usize = 16;

/// The most numbers that one report block may have.
pub const MOST_REPORTS: usize = 16_384;

/// What a number and a request add to [`room`], in octets.
const ROOM_OF_A_NUMBER: usize = 12;
const ROOM_OF_A_REQUEST: usize = 20;

/// Octets of output that are enough for so many numbers in so many requests, whatever the limit.
///
/// ```
/// // A report on up to 100 numbers of each of 4 streams.
/// let out = [0_u8; ccfb::room(400, 4)];
/// assert_eq!(out.len(), 4_880);
/// ```
pub const fn room(numbers: usize, requests: usize) -> usize {
    let of_numbers = numbers.saturating_mul(ROOM_OF_A_NUMBER);
    of_numbers.saturating_add(requests.saturating_mul(ROOM_OF_A_REQUEST))
}
