//! What a report is asked for.

use crate::{room, MOST_REQUESTS};
use core::fmt;
use core::ops::Deref;

/// A request for feedback on `count` numbers of a stream, starting at `begin`.
///
/// They must lie within the stream's window: the first is at most 2,047 behind H, and the last is
/// not ahead of it. A count of 0 asks for an empty block and needs begin = H. The requests that
/// [`Stream`](crate::Stream) makes are like that. **Never ask for numbers from before the stream's
/// [first arrival](crate::ArrivalKind::First)**: they would be reported as missing.
#[derive(Clone, Copy, Debug, PartialEq, Eq, Hash)]
#[repr(C)]
pub struct Request {
    /// The stream's SSRC.
    pub ssrc: u32,
    /// The first number.
    pub begin: u16,
    /// How many numbers.
    pub count: u16,
}

impl Request {
    /// The last number that it asks for, or `begin` if it asks for none.
    pub(crate) fn last(self) -> u16 {
        self.begin.wrapping_add(self.count.saturating_sub(1))
    }
}

/// The requests of one report, at most 16 and for no stream twice: a slice of them, without a
/// heap.
///
/// ```
/// use ccfb::{Reporter, Request, Stream};
///
/// let streams = [7, 8].map(|ssrc| Stream { ssrc, highest: 100, oldest: 91 });
/// let requests = Reporter::new(0).requests(streams);
/// assert_eq!(requests[1], Request { ssrc: 8, begin: 91, count: 10 });
/// assert_eq!(requests.room(), ccfb::room(20, 2));
/// ```
#[derive(Clone)]
pub struct Requests {
    list: [Request; MOST_REQUESTS],
    count: usize,
}

impl Requests {
    pub(crate) const NONE: Requests =
        Requests { list: [Request { ssrc: 0, begin: 0, count: 0 }; MOST_REQUESTS], count: 0 };

    /// Octets of output that are enough for a report on them, whatever the limit: as
    /// [`room`](crate::room).
    pub fn room(&self) -> usize {
        let numbers = self.iter().map(|request| usize::from(request.count)).sum();
        room(numbers, self.len())
    }

    /// The request for the stream.
    pub(crate) fn of(&self, ssrc: u32) -> Option<Request> {
        self.iter().copied().find(|request| request.ssrc == ssrc)
    }

    /// Adds a request, or replaces the one for the same stream. A 17th is not added.
    pub(crate) fn put(&mut self, request: Request) {
        let same = self.iter().position(|earlier| earlier.ssrc == request.ssrc);
        let at = same.unwrap_or(self.count);
        if let Some(entry) = self.list.get_mut(at) {
            *entry = request;
            self.count = self.count.max(at + 1);
        }
    }

    /// Adds a request for a stream that has none. A 17th takes the place of the earliest.
    pub(crate) fn add_dropping_earliest(&mut self, request: Request) {
        if self.count == MOST_REQUESTS {
            self.list.rotate_left(1);
            self.count -= 1;
        }
        self.put(request);
    }

    /// The requests for the other streams.
    pub(crate) fn without(&self, ssrc: u32) -> Requests {
        let mut others = Requests::NONE;
        for request in self.iter().filter(|request| request.ssrc != ssrc) {
            others.put(*request);
        }
        others
    }
}

impl Deref for Requests {
    type Target = [Request];

    fn deref(&self) -> &[Request] {
        self.list.get(..self.count).unwrap_or(&self.list)
    }
}

impl fmt::Debug for Requests {
    fn fmt(&self, f: &mut fmt::Formatter<'_>) -> fmt::Result {
        self.deref().fmt(f)
    }
}
