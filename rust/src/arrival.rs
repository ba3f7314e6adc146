//! What an accepted arrival was.

/// The numbers of the kinds, as in the C header.
pub(crate) const FIRST: u16 = 0;
pub(crate) const AHEAD: u16 = 1;
pub(crate) const LATE: u16 = 2;
pub(crate) const COPY: u16 = 3;

/// What an arrival was that a store [accepted](crate::StoreOver::arrive).
///
/// ```
/// use ccfb::{ArrivalKind, Mark, Refusal, Store, Time};
///
/// let mut store = Store::<1>::new();
/// let mut arrive = |number| store.arrive(7, number, Mark::Ect1, Time::Unknown);
/// assert_eq!(arrive(65_534)?, ArrivalKind::First);
/// assert_eq!(arrive(65_535)?, ArrivalKind::Ahead { passed_over: 0 }); // the next in order
/// assert_eq!(arrive(3)?, ArrivalKind::Ahead { passed_over: 3 }); // 0, 1 and 2 are not here
/// assert_eq!(arrive(1)?, ArrivalKind::Late);
/// assert_eq!(arrive(1)?, ArrivalKind::Copy);
/// # Ok::<(), Refusal>(())
/// ```
///
/// Late packets were reordered on the way, and copies were duplicated. After its stream was
/// [forgotten](crate::StoreOver::forget), a duplicate from before need not be a copy. A number
/// that was passed over is not lost yet: it may still come late.
#[derive(Clone, Copy, Debug, PartialEq, Eq, Hash)]
pub enum ArrivalKind {
    /// Its stream had no place: it is new, or was [forgotten](crate::StoreOver::forget). The
    /// reports on the stream [start here](crate::Reporter::arrived).
    First,
    /// Ahead of the highest number so far.
    Ahead {
        /// How many numbers are between that one and this: 0 to
        /// [`MOST_PASSED_OVER`](crate::MOST_PASSED_OVER).
        passed_over: u16,
    },
    /// Behind the highest number, and not received since the stream took its place.
    Late,
    /// Received since the stream took its place.
    Copy,
}

impl ArrivalKind {
    /// How many numbers it passed over; 0 unless it was ahead.
    ///
    /// ```
    /// use ccfb::ArrivalKind;
    ///
    /// assert_eq!(ArrivalKind::Ahead { passed_over: 3 }.passed_over(), 3);
    /// assert_eq!(ArrivalKind::First.passed_over(), 0);
    /// ```
    pub fn passed_over(self) -> u16 {
        match self {
            ArrivalKind::Ahead { passed_over } => passed_over,
            ArrivalKind::First | ArrivalKind::Late | ArrivalKind::Copy => 0,
        }
    }

    /// The number of the kind, as in C.
    ///
    /// ```
    /// assert_eq!(ccfb::ArrivalKind::Copy.number(), 3);
    /// ```
    pub fn number(self) -> u16 {
        match self {
            ArrivalKind::First => FIRST,
            ArrivalKind::Ahead { .. } => AHEAD,
            ArrivalKind::Late => LATE,
            ArrivalKind::Copy => COPY,
        }
    }
}
