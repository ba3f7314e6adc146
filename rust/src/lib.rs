//! RTCP Congestion Control Feedback (CCFB, [RFC 8888]) for receivers and senders of RTP: a safe
//! wrapper of the proved library `libccfb.a`.
//!
//! - A receiver records what arrives in a [`Store`], which says of each packet whether it was the
//!   first, ahead, late or a copy ([`ArrivalKind`]). For each report a [`Reporter`] makes the
//!   requests, and the store [writes](StoreOver::write) the packets.
//! - A sender registers what it sends in [`SentPackets`], takes in the feedback of each received
//!   [`Datagram`], and asks what became of a packet. To see what a single report says, it reads
//!   the feedback as [`Packet`]s.
//!
//! ```
//! use ccfb::{Datagram, Mark, Refusal, Report, Reporter, RtcpPacket};
//! use ccfb::{SentPackets, Status, Store, Time};
//!
//! # fn main() -> Result<(), Refusal> {
//! // The sender registers each packet that it sends.
//! let mut sent = SentPackets::<4>::new();
//! for number in [65534, 65535, 0, 1] {
//!     sent.register(0x0a01, number)?;
//! }
//!
//! // The receiver: 65535 is lost. A real one takes its times from the clock, see `ntp_time`.
//! let mut store = Store::<4>::new();
//! let mut reporter = Reporter::new(16);
//! for (number, mark, time) in [(65534, Mark::Ect0, 0x0004_8000), (0, Mark::Ce, 0x0005_0000)] {
//!     let kind = store.arrive(0x0a01, number, mark, Time::At(time))?;
//!     reporter.arrived(0x0a01, number, kind);
//! }
//!
//! // A report, every 50 ms or so: what is new since the last, and up to 16 numbers once more.
//! let requests = reporter.requests(store.streams());
//! let report = Report { own: 0xf1, rts: 0x0005_0000, limit: 1_200 };
//! let mut out = vec![0; requests.room()];
//! let mut packets = store.write(report, &requests, &mut out)?;
//! let datagram = packets.next().expect("a packet");
//! reporter.reported(&requests);
//!
//! // The sender takes in what comes, and asks. The first report starts at the first arrival.
//! for packet in Datagram::read(datagram)?.packets().filter(RtcpPacket::is_ccfb) {
//!     sent.take_in(packet.octets())?;
//! }
//! let became = [65534, 65535, 0, 1].map(|number| sent.status(0x0a01, number));
//! assert_eq!(
//!     became,
//!     [
//!         Ok(Status::Received { mark: Mark::Ect0, time: 0x0004_8000 }),
//!         Ok(Status::Missing),
//!         Ok(Status::Received { mark: Mark::Ce, time: 0x0005_0000 }),
//!         Ok(Status::NotReported),
//!     ]
//! );
//! # Ok(())
//! # }
//! ```
//!
//! # Which numbers to report
//!
//! **Never report numbers from before the first that arrived.** They would be reported as
//! missing, and a sender takes that for loss: the newest 64 numbers of a stream of which one
//! packet arrived are 98 % loss. Report what is new since the last report, and a few numbers
//! again for packets that arrive late. A [`Reporter`] does that if it is told of each
//! [arrival](Reporter::arrived). [`Stream`] has ranges to use by hand; it does not know the first
//! arrival, and some of its ranges may reach back to a late packet from before it.
//!
//! # What may be trusted
//!
//! What is recorded, written and read, and what is known of sent packets, is decided by the
//! library, whose behaviour is proved. Which numbers to report, the conversion of times and
//! [`RtcpPacket::is_ccfb`] are decided by this crate, and tested. Refusals of what the types here
//! rule out (a mark above 3, an owned store of another shape) cannot happen, and no answer of the
//! library makes the crate panic.
//!
//! # Features
//!
//! - `std` (default): times from [`SystemTime`](std::time::SystemTime). Implies `alloc`.
//! - `alloc`: [`Store`] and [`SentPackets`], which own their memory.
//!
//! Without them the crate is `no_std` and allocates nothing: use [`StoreIn`] and
//! [`SentPacketsIn`].
//!
//! # Linking
//!
//! The environment variable `CCFB_LIB_DIR` gives the full path of the folder of `libccfb.a`.
//! Without it the crate looks where `scripts/library` and a release have it, beside the crate's
//! folder. `cargo doc`, `cargo check` and `cargo clippy` work without the library.
//!
//! [RFC 8888]: https://www.rfc-editor.org/rfc/rfc8888

#![no_std]
#![deny(missing_docs, unsafe_code)]
#![cfg_attr(not(feature = "std"), allow(rustdoc::broken_intra_doc_links))] // to what it adds

#[cfg(feature = "alloc")]
extern crate alloc;
#[cfg(feature = "std")]
extern crate std;

mod arrival;
mod datagram;
mod limits;
mod memory;
mod metric;
mod packet;
mod raw;
mod refusal;
mod reporter;
mod requests;
mod sent;
mod status;
mod store;
mod stream;
mod time;
mod write;

pub use arrival::ArrivalKind;
pub use datagram::{Datagram, FeedbackPackets, RtcpPacket, RtcpPackets};
pub use limits::{room, CELLS_OF_A_PLACE, LIMITS};
pub use limits::{MOST_PASSED_OVER, MOST_PLACES, MOST_REPORTS, MOST_REQUESTS};
#[cfg(feature = "alloc")]
pub use memory::Owned;
pub use memory::{Borrowed, Memory};
pub use metric::{decode_metric, encode_metric, kind, Mark, Metric};
pub use packet::{rewrite, Block, Blocks, Metrics, Packet};
pub use refusal::Refusal;
pub use reporter::Reporter;
pub use requests::{Request, Requests};
#[cfg(feature = "alloc")]
pub use sent::SentPackets;
pub use sent::{SentPacketsIn, SentPacketsOver};
pub use status::Status;
#[cfg(feature = "alloc")]
pub use store::Store;
pub use store::{StoreIn, StoreOver};
pub use stream::Stream;
#[cfg(feature = "std")]
pub use time::ntp_time;
pub use time::{ntp_time_from_unix, Time};
pub use write::{Packets, Report};
