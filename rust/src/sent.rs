//! What a sender knows of its sent packets.

#[cfg(feature = "alloc")]
use crate::memory::Owned;
use crate::memory::{Borrowed, Memory};
use crate::{raw, Refusal, Status};
use core::fmt;

/// The sent packets of up to `PLACES` streams, 1 to 16, in memory of its own. Needs the feature
/// `alloc`. Its methods are those of [`SentPacketsOver`].
///
/// ```
/// use ccfb::{Refusal, SentPackets, Status};
///
/// let mut sent = SentPackets::<1>::new();
/// assert_eq!(sent.register(7, 100), Ok(()));
/// assert_eq!(sent.register(9, 500), Err(Refusal::NoFreePlace));
/// assert_eq!(sent.status(7, 100), Ok(Status::NotReported));
/// ```
///
/// Another number of places does not compile:
///
/// ```compile_fail
/// ccfb::SentPackets::<17>::new();
/// ```
#[cfg(feature = "alloc")]
pub type SentPackets<const PLACES: usize> = SentPacketsOver<Owned<PLACES>>;

/// Sent packets in memory that it borrows: static memory, or memory for a number of places that is
/// only known at run time. It allocates nothing. Its methods are those of [`SentPacketsOver`].
///
/// What is in the memory is kept, and zeroed memory has no stream. So it may be made anew for each
/// use, at the cost of a look at the two lengths. [`StoreIn`](crate::StoreIn) has an example in
/// static memory.
///
/// ```
/// use ccfb::{Refusal, SentPacketsIn, Status, CELLS_OF_A_PLACE};
///
/// let streams = 3; // as many as are sent
/// let mut places = vec![0; streams];
/// let mut cells = vec![0; streams * CELLS_OF_A_PLACE];
/// SentPacketsIn::new(&mut places, &mut cells)?.register(7, 100)?;
/// let sent = SentPacketsIn::new(&mut places, &mut cells)?;
/// assert_eq!(sent.status(7, 100), Ok(Status::NotReported));
/// # Ok::<(), Refusal>(())
/// ```
pub type SentPacketsIn<'a> = SentPacketsOver<Borrowed<'a>>;

/// What is known of the sent packets of up to 16 RTP streams: for each stream its highest
/// registered sequence number H, and the [`Status`] of each registered one of the 2,048 numbers up
/// to H.
///
/// A sender registers each number when it sends the packet, takes in the feedback that comes, and
/// asks:
///
/// ```
/// use ccfb::{Datagram, Mark, Refusal, RtcpPacket, SentPackets, Status};
///
/// struct Camera {
///     ssrc: u32,
///     next: u16,
///     sent: SentPackets<1>,
/// }
///
/// impl Camera {
///     fn send(&mut self) -> Result<(), Refusal> {
///         self.sent.register(self.ssrc, self.next)?;
///         // Here the packet is sent.
///         self.next = self.next.wrapping_add(1);
///         Ok(())
///     }
///
///     /// A refused packet changes nothing, and does not hide the next.
///     fn on_rtcp(&mut self, datagram: &[u8]) -> Result<(), Refusal> {
///         for packet in Datagram::read(datagram)?.packets().filter(RtcpPacket::is_ccfb) {
///             if let Err(refusal) = self.sent.take_in(packet.octets()) {
///                 eprintln!("feedback {refusal}");
///             }
///         }
///         Ok(())
///     }
/// }
///
/// let mut camera = Camera { ssrc: 0x0a01, next: 65_535, sent: SentPackets::new() };
/// for _ in 0..3 {
///     camera.send()?;
/// }
/// camera.on_rtcp(&[
///     0x8b, 0xcd, 0x00, 0x05, 0x00, 0x00, 0x00, 0xf1, // feedback: header, sender
///     0x00, 0x00, 0x0a, 0x01, 0xff, 0xff, 0x00, 0x02, // stream, begin_seq, num_reports
///     0x00, 0x00, 0xe2, 0x00, 0x00, 0x05, 0x00, 0x00, // two metrics, RTS
/// ])?;
/// let status = |number| camera.sent.status(camera.ssrc, number);
/// assert_eq!(status(65_535), Ok(Status::Missing));
/// assert_eq!(status(0), Ok(Status::Received { mark: Mark::Ce, time: 0x0004_8000 }));
/// assert_eq!(status(1), Ok(Status::NotReported));
/// assert_eq!(status(2), Err(Refusal::NotRegistered));
/// # Ok::<(), Refusal>(())
/// ```
///
/// `SentPackets` owns its memory, and [`SentPacketsIn`] borrows it. Each place for a stream takes
/// 16 KiB and 8 octets. A stream keeps its place: to have places again, start with new memory. If
/// several receivers report on a stream, have one for each of them.
#[derive(Clone)]
pub struct SentPacketsOver<M> {
    memory: M,
}

#[cfg(feature = "alloc")]
impl<const PLACES: usize> SentPacketsOver<Owned<PLACES>> {
    /// Nothing is sent yet: every place is free.
    pub fn new() -> SentPackets<PLACES> {
        SentPacketsOver { memory: Owned::zeroed() }
    }
}

impl<'a> SentPacketsOver<Borrowed<'a>> {
    /// What is in this memory: a word for each place, and
    /// [`CELLS_OF_A_PLACE`](crate::CELLS_OF_A_PLACE) words of cells for each. Memory of a
    /// [`StoreIn`](crate::StoreIn) is of the same shape, but what it says is about arrivals.
    ///
    /// # Errors
    ///
    /// [`Refusal::BadStore`] if there are not 1 to 16 places, or not so many cells.
    ///
    /// ```
    /// use ccfb::{Refusal, SentPacketsIn};
    ///
    /// let mut cells = [0; 4_096];
    /// assert!(SentPacketsIn::new(&mut [0; 2], &mut cells).is_ok());
    /// assert_eq!(SentPacketsIn::new(&mut [0; 3], &mut cells).err(), Some(Refusal::BadStore));
    /// ```
    pub fn new(places: &'a mut [u64], cells: &'a mut [u64]) -> Result<SentPacketsIn<'a>, Refusal> {
        let sent = SentPacketsOver { memory: Borrowed::new(places, cells) };
        // Whatever is known of a number, only this refusal is about the two lengths.
        match sent.status(0, 0) {
            Err(Refusal::BadStore) => Err(Refusal::BadStore),
            _ => Ok(sent),
        }
    }
}

impl<M: Memory> SentPacketsOver<M> {
    /// Registers the number of a packet, just before it is sent: a report on a number that is not
    /// registered is ignored. A number up to 32,767 ahead of H becomes the new H, as with the
    /// arrivals of a [store](crate::StoreOver::arrive). Registering a number again changes nothing
    /// while it is in the window.
    ///
    /// # Errors
    ///
    /// [`Refusal::TooOld`] for a number that is neither in the stream's window nor ahead of it,
    /// [`Refusal::NoFreePlace`] for a new stream that finds no place.
    ///
    /// ```
    /// use ccfb::{Refusal, SentPackets};
    ///
    /// let mut sent = SentPackets::<1>::new();
    /// assert_eq!(sent.register(7, 5_000), Ok(()));
    /// assert_eq!(sent.register(7, 2_953), Ok(()));
    /// assert_eq!(sent.register(7, 2_952), Err(Refusal::TooOld));
    /// ```
    pub fn register(&mut self, ssrc: u32, number: u16) -> Result<(), Refusal> {
        raw::register(self.memory.words_mut(), ssrc, number)
    }

    /// Takes in a feedback packet, a CCFB packet by itself; [`Datagram`](crate::Datagram) finds
    /// those of a datagram. Packets may be lost, come twice or in another order: "missing" never
    /// replaces "received", and another "received" does. So the packet that is taken in last
    /// decides mark and time, even if it is the older one.
    ///
    /// What the packet says of other streams, and of numbers that are not registered or no longer
    /// in the window, is ignored.
    ///
    /// # Errors
    ///
    /// Those of [`Packet::read`](crate::Packet::read). A refused packet changes nothing.
    ///
    /// ```
    /// use ccfb::{Mark, Refusal, Report, Request, SentPackets, Status, Store, Time};
    ///
    /// let mut sent = SentPackets::<1>::new();
    /// for number in [100, 101] {
    ///     sent.register(7, number)?;
    /// }
    ///
    /// // The receiver: 100 comes late, between two reports.
    /// let mut store = Store::<1>::new();
    /// let report = |store: &Store<1>, rts, out: &mut [u8]| {
    ///     let request = Request { ssrc: 7, begin: 100, count: 2 };
    ///     store.write(Report { own: 1, rts, limit: 1_200 }, &[request], out).map(|_| ())
    /// };
    /// let (mut first, mut second) = ([0; 24], [0; 24]);
    /// store.arrive(7, 101, Mark::Ect1, Time::At(0))?;
    /// report(&store, 64, &mut first)?;
    /// store.arrive(7, 100, Mark::Ect1, Time::At(128))?;
    /// report(&store, 192, &mut second)?;
    ///
    /// sent.take_in(&first)?;
    /// assert_eq!(sent.status(7, 100), Ok(Status::Missing));
    /// sent.take_in(&second)?;
    /// sent.take_in(&first)?; // once more
    /// let received = Status::Received { mark: Mark::Ect1, time: 128 };
    /// assert_eq!(sent.status(7, 100), Ok(received));
    /// assert_eq!(sent.take_in(&first[..23]), Err(Refusal::BadLength));
    /// # Ok::<(), Refusal>(())
    /// ```
    pub fn take_in(&mut self, packet: &[u8]) -> Result<(), Refusal> {
        raw::take_in(self.memory.words_mut(), packet)
    }

    /// What is known of a sent number.
    ///
    /// # Errors
    ///
    /// [`Refusal::NotHeld`] if no number of the stream was registered, then
    /// [`Refusal::NotRegistered`] if this one was not, or is 2,048 or more behind H.
    ///
    /// ```
    /// use ccfb::{Refusal, SentPackets, Status};
    ///
    /// let mut sent = SentPackets::<1>::new();
    /// sent.register(7, 100)?;
    /// assert_eq!(sent.status(7, 100), Ok(Status::NotReported));
    /// assert_eq!(sent.status(7, 101), Err(Refusal::NotRegistered));
    /// assert_eq!(sent.status(8, 100), Err(Refusal::NotHeld));
    /// sent.register(7, 2_148)?;
    /// assert_eq!(sent.status(7, 100), Err(Refusal::NotRegistered));
    /// # Ok::<(), Refusal>(())
    /// ```
    pub fn status(&self, ssrc: u32, number: u16) -> Result<Status, Refusal> {
        raw::status(self.memory.words(), ssrc, number)
    }
}

#[cfg(feature = "alloc")]
impl<const PLACES: usize> Default for SentPackets<PLACES> {
    fn default() -> SentPackets<PLACES> {
        SentPackets::new()
    }
}

/// Shows how many places there are, but not the many cells.
impl<M: Memory> fmt::Debug for SentPacketsOver<M> {
    fn fmt(&self, f: &mut fmt::Formatter<'_>) -> fmt::Result {
        let places = self.memory.words().places.len();
        f.debug_struct("SentPackets").field("places", &places).finish_non_exhaustive()
    }
}
