//! A stream of a store, and the ranges to report on it.

use crate::{Request, CELLS_OF_A_PLACE};

/// How many numbers the window of a stream has.
const WINDOW: u16 = CELLS_OF_A_PLACE as u16;

/// A number that is this far behind another, or farther, counts as ahead of it.
const HALF_WAY_ROUND: u16 = 0x8000;

/// A stream that a place holds.
///
/// It makes requests for a report. [`all`](Stream::all) and [`newest`](Stream::newest) start at
/// the oldest number that arrived, or later. So do [`since`](Stream::since) and
/// [`since_with_overlap`](Stream::since_with_overlap), unless the window has moved past `last`:
/// then they start at the lowest number of the window.
///
/// **Never report numbers from before the first arrival**: nobody knows whether they were sent,
/// and the sender would take them for lost. A `Stream` knows the oldest number that arrived, and
/// not the first. So `all`, `newest` and an overlap may reach back to a late packet from before
/// the first arrival. Prefer a [`Reporter`](crate::Reporter) that is told of the arrivals: it
/// makes the requests for all streams.
///
/// ```
/// use ccfb::{Request, Stream};
///
/// // 65534 was the first to arrive, 1 the last.
/// let stream = Stream { ssrc: 7, highest: 1, oldest: 65534 };
/// assert_eq!(stream.all(), Request { ssrc: 7, begin: 65534, count: 4 });
/// assert_eq!(stream.since(65535), Request { ssrc: 7, begin: 0, count: 2 });
/// ```
#[derive(Clone, Copy, Debug, PartialEq, Eq, Hash)]
pub struct Stream {
    /// Its SSRC.
    pub ssrc: u32,
    /// Its highest sequence number H.
    pub highest: u16,
    /// The oldest number of its window that arrived.
    pub oldest: u16,
}

impl Stream {
    /// The request for its newest `count` numbers, or for [all](Stream::all) if they are fewer.
    ///
    /// ```
    /// use ccfb::{Request, Stream};
    ///
    /// let stream = Stream { ssrc: 7, highest: 1, oldest: 65530 };
    /// assert_eq!(stream.newest(4), Request { ssrc: 7, begin: 65534, count: 4 });
    ///
    /// let started = Stream { ssrc: 7, highest: 1, oldest: 1 };
    /// assert_eq!(started.newest(64), Request { ssrc: 7, begin: 1, count: 1 });
    /// ```
    pub fn newest(self, count: u16) -> Request {
        self.up_to_highest(count.min(self.known()))
    }

    /// The request for all numbers from the oldest that arrived to H: the first report on a stream
    /// whose first arrival is not known. If it is, the first report is the one
    /// [`since`](Stream::since) the number before it.
    ///
    /// ```
    /// use ccfb::{Request, Stream};
    ///
    /// // 100 was the first to arrive, and 97 came late.
    /// let stream = Stream { ssrc: 7, highest: 100, oldest: 97 };
    /// assert_eq!(stream.all(), Request { ssrc: 7, begin: 97, count: 4 });
    /// assert_eq!(stream.since(99), Request { ssrc: 7, begin: 100, count: 1 });
    /// ```
    pub fn all(self) -> Request {
        self.up_to_highest(self.known())
    }

    /// The request for the numbers after `last`, the last one reported, up to H: at most the 2,048
    /// of the window. If none is new, the request is for an empty block at H.
    ///
    /// A `last` that is not of this history asks for [all](Stream::all): if it is ahead of H, or
    /// in the window while nothing up to it arrived. A stream that was forgotten and came back is
    /// like that. So is one that has moved on by 32,768 to 65,535 numbers: report more often.
    ///
    /// ```
    /// use ccfb::{Request, Stream};
    ///
    /// let stream = Stream { ssrc: 7, highest: 100, oldest: 90 };
    /// assert_eq!(stream.since(96), Request { ssrc: 7, begin: 97, count: 4 });
    /// assert_eq!(stream.since(100), Request { ssrc: 7, begin: 100, count: 0 });
    /// assert_eq!(stream.since(80), stream.all());
    /// assert_eq!(stream.since(101), stream.all());
    ///
    /// // The window has moved past 1,000: the request starts at its lowest number.
    /// let far_on = Stream { ssrc: 7, highest: 5_000, oldest: 4_990 };
    /// assert_eq!(far_on.since(1_000), Request { ssrc: 7, begin: 2_953, count: 2_048 });
    /// ```
    pub fn since(self, last: u16) -> Request {
        self.since_with_overlap(last, 0)
    }

    /// As [`since`](Stream::since), with up to `overlap` numbers before those once more.
    ///
    /// A packet that arrives late, after its number was reported missing, is only told to the
    /// sender if its number is reported again. So the overlap should have more numbers than
    /// packets are late by. It also helps where a report is lost. Each number costs 2 octets a
    /// report.
    ///
    /// ```
    /// use ccfb::{Request, Stream};
    ///
    /// let stream = Stream { ssrc: 7, highest: 100, oldest: 90 };
    /// assert_eq!(stream.since_with_overlap(96, 3), Request { ssrc: 7, begin: 94, count: 7 });
    /// assert_eq!(stream.since_with_overlap(96, 50), stream.all());
    /// assert_eq!(stream.since_with_overlap(100, 2), Request { ssrc: 7, begin: 99, count: 2 });
    ///
    /// // 100 was the first to arrive, and 97 came late: the overlap reaches back to it.
    /// let stream = Stream { ssrc: 7, highest: 101, oldest: 97 };
    /// assert_eq!(stream.since_with_overlap(100, 8), Request { ssrc: 7, begin: 97, count: 5 });
    /// ```
    pub fn since_with_overlap(self, last: u16, overlap: u16) -> Request {
        let known = self.known();
        let count = match self.fresh(last) {
            Some(fresh) => known.min(fresh.saturating_add(overlap)).max(fresh),
            None => known,
        };
        self.up_to_highest(count)
    }

    /// The request for the numbers after those of the `last` request, and up to `overlap` of them
    /// once more: so it does not start before that one, whatever has arrived. After an empty
    /// request it starts at the number after its `begin`, or at the lowest of the window.
    pub(crate) fn after(self, last: Request, overlap: u16) -> Request {
        let count = match self.fresh(last.last()) {
            Some(fresh) => fresh.saturating_add(overlap.min(last.count)).min(WINDOW),
            None => self.known(),
        };
        self.up_to_highest(count)
    }

    /// How many numbers there are from the oldest that arrived to H.
    fn known(self) -> u16 {
        self.highest.wrapping_sub(self.oldest).min(WINDOW - 1) + 1
    }

    /// How many numbers of the window follow `last`, if it is of this history.
    ///
    /// They may be more than are known: if the window has moved past `last`, the numbers before
    /// the oldest that arrived are lost.
    fn fresh(self, last: u16) -> Option<u16> {
        let fresh = self.highest.wrapping_sub(last);
        let is_ahead = fresh >= HALF_WAY_ROUND;
        let of_another_history = is_ahead || (fresh < WINDOW && fresh >= self.known());
        (!of_another_history).then_some(fresh.min(WINDOW))
    }

    fn up_to_highest(self, count: u16) -> Request {
        let back = count.saturating_sub(1);
        Request { ssrc: self.ssrc, begin: self.highest.wrapping_sub(back), count }
    }
}
