//! Which numbers the next report is on.

use crate::{ArrivalKind, Request, Requests, Stream};

/// Remembers what was reported of each stream of a store, and makes the requests of the next
/// report. It needs no heap.
///
/// The first report on a stream starts at its [first arrival](Reporter::arrived); each later one
/// has the numbers since the last, and as many of that one again as the overlap says. **No report
/// has numbers from before the first arrival, as long as the reporter is told what each arrival
/// was**, with at most 16 first ones [between two reports](Reporter::arrived). Nobody knows whether
/// such numbers were sent, and the sender would take them for lost.
///
/// A stream of which nothing is new gets its overlap, or an empty block without one, so that every
/// report names each stream that the store holds: the sender then sees that nothing arrived.
///
/// A stream whose first arrival the reporter was not told of, as in a store that other code has
/// filled, is first reported from the oldest number of its window that arrived.
///
/// Report at least once in 2,048 packets of a stream: the store knows of no more numbers, and a
/// report on a stream that has moved on farther starts at the lowest number that it knows of. If
/// 32,768 to 65,535 numbers are new, it starts at the oldest of the window that arrived; 65,536
/// look like none, since numbers come round.
///
/// ```
/// use ccfb::{Mark, Refusal, Report, Reporter, Request, Store, Time};
///
/// struct Receiver {
///     store: Store<4>,
///     reporter: Reporter,
/// }
///
/// impl Receiver {
///     fn on_packet(&mut self, ssrc: u32, number: u16, now: u32) -> Result<(), Refusal> {
///         let kind = self.store.arrive(ssrc, number, Mark::Ect1, Time::At(now))?;
///         self.reporter.arrived(ssrc, number, kind);
///         Ok(())
///     }
///
///     fn report(&mut self, rts: u32) -> Result<Request, Refusal> {
///         let requests = self.reporter.requests(self.store.streams());
///         let mut out = vec![0; requests.room()];
///         let report = Report { own: 1, rts, limit: 1_200 };
///         let packets = self.store.write(report, &requests, &mut out)?;
///         // Send the packets, one by one or in compound datagrams.
///         assert_eq!(packets.len(), 1);
///         self.reporter.reported(&requests);
///         Ok(requests[0])
///     }
/// }
///
/// let mut receiver = Receiver { store: Store::new(), reporter: Reporter::new(2) };
/// receiver.on_packet(7, 100, 1_000)?; // the reports start here
/// receiver.on_packet(7, 97, 1_500)?; // from before, and late: it is not reported
/// assert_eq!(receiver.report(2_000)?, Request { ssrc: 7, begin: 100, count: 1 });
///
/// // 101 is late or lost: it is reported as missing, and once more in the next report.
/// receiver.on_packet(7, 102, 3_000)?;
/// assert_eq!(receiver.report(4_000)?, Request { ssrc: 7, begin: 100, count: 3 });
/// receiver.on_packet(7, 103, 5_000)?;
/// assert_eq!(receiver.report(6_000)?, Request { ssrc: 7, begin: 101, count: 3 });
/// # Ok::<(), Refusal>(())
/// ```
#[derive(Clone, Debug)]
pub struct Reporter {
    overlap: u16,
    /// What was last reported of each stream. If nothing was yet, its start, if that is known.
    reported: Requests,
    /// The starts of the streams whose first arrival came after the last `requests`. They count
    /// more than what was reported: that may be of an earlier history, if it was sent since.
    started: Requests,
}

impl Reporter {
    /// Nothing is reported yet. Every report after the first on a stream will have up to `overlap`
    /// numbers of the one before once more: choose more than packets are late by, see
    /// [`Stream::since_with_overlap`].
    pub const fn new(overlap: u16) -> Reporter {
        Reporter { overlap, reported: Requests::NONE, started: Requests::NONE }
    }

    /// Takes note of an arrival that the store [accepted](crate::StoreOver::arrive). Call it for
    /// each, or at least for those that are the first of their stream: the reports on the stream
    /// then start at this number. What was known of the stream before is dropped, so one that was
    /// forgotten and came back starts anew. The other kinds change nothing.
    ///
    /// If another thread reports, hold one lock over the arrival and this call:
    /// [`StoreIn`](crate::StoreIn) has an example.
    ///
    /// **16 first arrivals are remembered between two calls of [`requests`](Reporter::requests).**
    /// A 17th takes the place of the earliest of them, whose stream, if the store still holds it,
    /// is then first reported from its oldest number. So many come only where streams are
    /// forgotten in between, as a store has 16 places: if the reporter is told
    /// [what is forgotten](Reporter::forget), there is never a 17th.
    ///
    /// ```
    /// use ccfb::{Mark, Refusal, Reporter, Store, Time};
    ///
    /// let mut store = Store::<1>::new();
    /// let mut reporter = Reporter::new(16);
    /// for first in [100, 5_000] {
    ///     for number in [first, first - 3] {
    ///         let kind = store.arrive(7, number, Mark::Ect1, Time::Unknown)?;
    ///         reporter.arrived(7, number, kind);
    ///     }
    ///     let requests = reporter.requests(store.streams());
    ///     assert_eq!((requests[0].begin, requests[0].count), (first, 1));
    ///     reporter.reported(&requests);
    ///     store.forget(7)?;
    /// }
    /// # Ok::<(), Refusal>(())
    /// ```
    pub fn arrived(&mut self, ssrc: u32, number: u16, kind: ArrivalKind) {
        if kind == ArrivalKind::First {
            self.forget(ssrc);
            // As if the number before had been reported, and none that may be repeated.
            let start = Request { ssrc, begin: number.wrapping_sub(1), count: 0 };
            self.started.add_dropping_earliest(start);
        }
    }

    /// The requests of the next report. Pass all streams of the store: those that are not among
    /// them are no longer remembered.
    ///
    /// Write them before the next arrival: they are of the streams as they are now.
    pub fn requests(&mut self, streams: impl IntoIterator<Item = Stream>) -> Requests {
        let (mut requests, mut held) = (Requests::NONE, Requests::NONE);
        for stream in streams {
            if requests.of(stream.ssrc).is_some() {
                continue; // in memory that no store has filled, two places may have one stream
            }
            let last = self.started.of(stream.ssrc).or_else(|| self.reported.of(stream.ssrc));
            let Some(last) = last else {
                requests.put(stream.all());
                continue;
            };
            requests.put(stream.after(last, self.overlap));
            held.put(last);
        }
        self.reported = held;
        self.started = Requests::NONE;
        requests
    }

    /// Remembers that the numbers of these requests were reported. Call it when the packets are
    /// sent, not before: if writing or sending fails, the next report then has the numbers too.
    /// Call it before the next [`requests`](Reporter::requests). Packets may arrive in between; but
    /// forget no stream in between, unless the reporter is told of the
    /// [arrivals](Reporter::arrived).
    pub fn reported(&mut self, requests: &[Request]) {
        for request in requests {
            self.reported.put(*request);
        }
    }

    /// Forgets a stream, so that the next report on it is a first one. Call it whenever the store
    /// [forgets](crate::StoreOver::forget) the stream.
    ///
    /// It is needed where the reporter is not told of the [arrivals](Reporter::arrived): if a
    /// stream comes back before the next report, and 2,048 or more numbers after the last one
    /// reported, nothing else tells it from one that lost so many. Where the reporter is told of
    /// them, it is only needed if more than 16 may be the first of a stream between two reports.
    ///
    /// ```
    /// use ccfb::{Reporter, Stream};
    ///
    /// let mut reporter = Reporter::new(0);
    /// let requests = reporter.requests([Stream { ssrc: 7, highest: 100, oldest: 90 }]);
    /// reporter.reported(&requests);
    ///
    /// // The store forgot the stream, and one packet of it has arrived since.
    /// let back = Stream { ssrc: 7, highest: 5_000, oldest: 5_000 };
    /// assert_eq!(reporter.clone().requests([back])[0].count, 2_048); // all but one as lost
    /// reporter.forget(7);
    /// assert_eq!(reporter.requests([back])[0].count, 1);
    /// ```
    pub fn forget(&mut self, ssrc: u32) {
        self.reported = self.reported.without(ssrc);
        self.started = self.started.without(ssrc);
    }
}
