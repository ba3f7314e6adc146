//! The store of arrivals.

#[cfg(feature = "alloc")]
use crate::memory::Owned;
use crate::memory::{Borrowed, Memory};
use crate::{raw, ArrivalKind, Mark, Packets, Refusal, Report, Request, Stream, Time};
use core::fmt;

/// A store that owns its memory, for up to `PLACES` streams, 1 to 16. Needs the feature `alloc`.
/// Its methods are those of [`StoreOver`].
///
/// ```
/// use ccfb::{ArrivalKind, Mark, Refusal, Store, Time};
///
/// let mut store = Store::<1>::new();
/// assert_eq!(store.arrive(7, 100, Mark::Ect1, Time::At(1)), Ok(ArrivalKind::First));
/// assert_eq!(store.arrive(9, 500, Mark::Ect1, Time::At(2)), Err(Refusal::NoFreePlace));
/// ```
///
/// Another number of places does not compile:
///
/// ```compile_fail
/// ccfb::Store::<17>::new();
/// ```
#[cfg(feature = "alloc")]
pub type Store<const PLACES: usize> = StoreOver<Owned<PLACES>>;

/// A store in memory that it borrows: static memory, or memory for a number of places that is only
/// known at run time. It allocates nothing. Its methods are those of [`StoreOver`].
///
/// What is in the memory is kept, and zeroed memory is a fresh store. So the store may be made
/// anew for each use, at the cost of a look at the two lengths.
///
/// In static memory, with the reporter under the same lock:
///
/// ```
/// use ccfb::{Mark, Refusal, Reporter, StoreIn, Time, CELLS_OF_A_PLACE};
/// use std::sync::Mutex;
///
/// const PLACES: usize = 4;
/// struct Receiver {
///     places: [u64; PLACES],
///     cells: [u64; PLACES * CELLS_OF_A_PLACE],
///     reporter: Reporter,
/// }
/// static RECEIVER: Mutex<Receiver> = Mutex::new(Receiver {
///     places: [0; PLACES],
///     cells: [0; PLACES * CELLS_OF_A_PLACE],
///     reporter: Reporter::new(16),
/// });
///
/// fn on_packet(ssrc: u32, number: u16, mark: Mark, time: Time) -> Result<(), Refusal> {
///     let receiver = &mut *RECEIVER.lock().expect("no thread panics with the lock");
///     let mut store = StoreIn::new(&mut receiver.places, &mut receiver.cells)?;
///     let kind = store.arrive(ssrc, number, mark, time)?;
///     receiver.reporter.arrived(ssrc, number, kind);
///     Ok(())
/// }
///
/// on_packet(7, 100, Mark::Ect1, Time::At(1))?;
/// on_packet(7, 101, Mark::Ect1, Time::At(2))?;
/// let receiver = &mut *RECEIVER.lock().expect("no thread panics with the lock");
/// let store = StoreIn::new(&mut receiver.places, &mut receiver.cells)?;
/// let requests = receiver.reporter.requests(store.streams());
/// assert_eq!((requests[0].begin, requests[0].count), (100, 2));
/// # Ok::<(), Refusal>(())
/// ```
///
/// With a number of places that is known at run time:
///
/// ```
/// use ccfb::{Mark, Refusal, StoreIn, Time, CELLS_OF_A_PLACE};
///
/// let streams = 3; // as many as were negotiated
/// let mut places = vec![0; streams];
/// let mut cells = vec![0; streams * CELLS_OF_A_PLACE];
/// let mut store = StoreIn::new(&mut places, &mut cells)?;
/// store.arrive(7, 100, Mark::Ect1, Time::At(1))?;
/// # Ok::<(), Refusal>(())
/// ```
pub type StoreIn<'a> = StoreOver<Borrowed<'a>>;

/// What arrived of up to 16 RTP streams: for each stream its highest sequence number H, and which
/// of the 2,048 numbers up to H arrived, when, and with which mark.
///
/// `Store` owns its memory, and [`StoreIn`] borrows it. Each place for a stream takes 16 KiB and 8
/// octets. A function that takes either is one over any [`Memory`]:
///
/// ```
/// use ccfb::{Memory, StoreOver};
///
/// fn is_idle<M: Memory>(store: &StoreOver<M>) -> bool {
///     store.streams().next().is_none()
/// }
/// assert!(is_idle(&ccfb::Store::<2>::new()));
/// ```
#[derive(Clone)]
pub struct StoreOver<M> {
    memory: M,
}

#[cfg(feature = "alloc")]
impl<const PLACES: usize> StoreOver<Owned<PLACES>> {
    /// A fresh store: every place is free.
    ///
    /// ```
    /// assert_eq!(ccfb::Store::<16>::new().streams().count(), 0);
    /// ```
    pub fn new() -> Store<PLACES> {
        StoreOver { memory: Owned::zeroed() }
    }
}

impl<'a> StoreOver<Borrowed<'a>> {
    /// The store that is in this memory: a word for each place, and
    /// [`CELLS_OF_A_PLACE`](crate::CELLS_OF_A_PLACE) words of cells for each.
    ///
    /// # Errors
    ///
    /// [`Refusal::BadStore`] if there are not 1 to 16 places, or not so many cells.
    ///
    /// ```
    /// use ccfb::{Refusal, StoreIn};
    ///
    /// let mut cells = [0; 4_096];
    /// assert!(StoreIn::new(&mut [0; 2], &mut cells).is_ok());
    /// assert_eq!(StoreIn::new(&mut [0; 3], &mut cells).err(), Some(Refusal::BadStore));
    /// ```
    pub fn new(places: &'a mut [u64], cells: &'a mut [u64]) -> Result<StoreIn<'a>, Refusal> {
        let store = StoreOver { memory: Borrowed::new(places, cells) };
        // No store has this place, so the answer is about the two lengths.
        match store.place(usize::MAX) {
            Ok(_) | Err(Refusal::NotHeld) => Ok(store),
            Err(refusal) => Err(refusal),
        }
    }
}

impl<M: Memory> StoreOver<M> {
    /// Records an arrival, and returns its kind; pass it to
    /// [`Reporter::arrived`](crate::Reporter::arrived). A copy keeps the first one's time and
    /// mark, except that the mark becomes [`Mark::Ce`] if any copy carried it.
    ///
    /// # Errors
    ///
    /// [`Refusal::TooOld`] for a number that is neither in the stream's window nor ahead of it,
    /// [`Refusal::NoFreePlace`] for an unknown stream that finds no place.
    ///
    /// ```
    /// use ccfb::{ArrivalKind, Mark, Refusal, Store, Time};
    ///
    /// let mut store = Store::<1>::new();
    /// let mut arrive = |number, time| store.arrive(7, number, Mark::Ect0, time);
    /// assert_eq!(arrive(4_997, Time::At(1)), Ok(ArrivalKind::First));
    /// assert_eq!(arrive(5_000, Time::At(2)), Ok(ArrivalKind::Ahead { passed_over: 2 }));
    /// assert_eq!(arrive(2_953, Time::Unknown), Ok(ArrivalKind::Late));
    /// assert_eq!(arrive(2_953, Time::At(4)), Ok(ArrivalKind::Copy));
    /// assert_eq!(arrive(2_952, Time::At(5)), Err(Refusal::TooOld));
    /// ```
    pub fn arrive(
        &mut self,
        ssrc: u32,
        number: u16,
        mark: Mark,
        time: Time,
    ) -> Result<ArrivalKind, Refusal> {
        raw::arrive(self.memory.words_mut(), ssrc, number, mark, time)
    }

    /// Forgets a stream and frees its place. Its history starts anew with its next arrival: a
    /// [`Reporter`](crate::Reporter::forget) must forget it too, or be told of the
    /// [arrivals](crate::Reporter::arrived).
    ///
    /// # Errors
    ///
    /// [`Refusal::NotHeld`].
    ///
    /// ```
    /// use ccfb::{Mark, Refusal, Store, Time};
    ///
    /// let mut store = Store::<1>::new();
    /// store.arrive(7, 100, Mark::Ect0, Time::At(1))?;
    /// assert_eq!(store.forget(7), Ok(()));
    /// assert_eq!(store.forget(7), Err(Refusal::NotHeld));
    /// # Ok::<(), Refusal>(())
    /// ```
    pub fn forget(&mut self, ssrc: u32) -> Result<(), Refusal> {
        raw::forget(self.memory.words_mut(), ssrc)
    }

    /// The stream that place `k`, from 0, holds.
    ///
    /// # Errors
    ///
    /// [`Refusal::NotHeld`] where the place is free or not there.
    ///
    /// ```
    /// use ccfb::{Mark, Refusal, Store, Stream, Time};
    ///
    /// let mut store = Store::<4>::new();
    /// store.arrive(7, 100, Mark::Ect0, Time::At(1))?;
    /// store.arrive(7, 103, Mark::Ect0, Time::At(2))?;
    /// assert_eq!(store.place(0), Ok(Stream { ssrc: 7, highest: 103, oldest: 100 }));
    /// assert_eq!(store.place(1), Err(Refusal::NotHeld));
    /// # Ok::<(), Refusal>(())
    /// ```
    pub fn place(&self, k: usize) -> Result<Stream, Refusal> {
        raw::place(self.memory.words(), k)
    }

    /// The streams held, in the order of their places.
    ///
    /// ```
    /// use ccfb::{Mark, Refusal, Store, Time};
    ///
    /// let mut store = Store::<4>::new();
    /// for ssrc in [9, 7, 8] {
    ///     store.arrive(ssrc, 100, Mark::Ect0, Time::At(1))?;
    /// }
    /// store.forget(7)?;
    /// assert_eq!(store.streams().map(|stream| stream.ssrc).collect::<Vec<_>>(), [9, 8]);
    /// # Ok::<(), Refusal>(())
    /// ```
    pub fn streams(&self) -> impl Iterator<Item = Stream> + '_ {
        (0..self.memory.words().places.len()).filter_map(|k| self.place(k).ok())
    }

    /// Writes feedback on the requests to the start of `out`: the fewest packets possible of at
    /// most `report.limit` octets each, back to back. The rest of `out` stays as it was.
    /// [`Requests::room`](crate::Requests::room) and [`room`](crate::room) say how long an `out`
    /// is always enough. A [`Reporter`](crate::Reporter) makes the requests.
    ///
    /// # Errors
    ///
    /// [`Refusal::BadLimit`], [`Refusal::TooManyRequests`]; then, request by request,
    /// [`Refusal::NotHeld`], [`Refusal::StreamRepeated`] and [`Refusal::BadRange`]; then
    /// [`Refusal::OutputTooShort`].
    ///
    /// ```
    /// use ccfb::{Mark, Refusal, Report, Request, Store, Time};
    ///
    /// let mut store = Store::<4>::new();
    /// store.arrive(7, 100, Mark::Ect0, Time::At(1))?;
    /// let report = Report { own: 1, rts: 66, limit: 1_200 };
    /// let mut out = [0; 32];
    /// let packets = store.write(report, &[Request { ssrc: 7, begin: 100, count: 1 }], &mut out)?;
    /// assert_eq!((packets.len(), packets.octets().len()), (1, 24));
    /// # Ok::<(), Refusal>(())
    /// ```
    pub fn write<'o>(
        &self,
        report: Report,
        requests: &[Request],
        out: &'o mut [u8],
    ) -> Result<Packets<'o>, Refusal> {
        let (packets, octets) = raw::write(self.memory.words(), report, requests, out)?;
        let written = out.get(..octets).ok_or(Refusal::OutputTooShort)?;
        Ok(Packets::new(packets, written))
    }
}

#[cfg(feature = "alloc")]
impl<const PLACES: usize> Default for Store<PLACES> {
    fn default() -> Store<PLACES> {
        Store::new()
    }
}

/// Shows the streams held, but not the many cells.
impl<M: Memory> fmt::Debug for StoreOver<M> {
    fn fmt(&self, f: &mut fmt::Formatter<'_>) -> fmt::Result {
        f.debug_list().entries(self.streams()).finish()
    }
}
