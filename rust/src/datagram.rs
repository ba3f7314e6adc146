//! The packets of a datagram.

use crate::{raw, Packet, Refusal};
use core::iter::FusedIterator;

/// The type and the FMT of a CCFB packet.
const CCFB_PACKET_TYPE: u8 = 205;
const CCFB_FORMAT: u8 = 11;

/// The padding flag, in the first octet of a packet.
const PADDING_FLAG: u8 = 0x20;

/// No packet has fewer octets.
const HEADER_OCTETS: usize = 4;

/// A received datagram, checked as a whole: RTCP packets back to back, of any types.
///
/// Any packet may come first: a compound datagram starts with a report (RFC 3550), a reduced-size
/// one need not (RFC 5506).
///
/// ```
/// use ccfb::{Datagram, Refusal};
///
/// let octets = [
///     0x80, 0xc9, 0x00, 0x01, 0x00, 0x00, 0x00, 0xf1, // a receiver report without blocks
///     0x8b, 0xcd, 0x00, 0x05, 0x00, 0x00, 0x00, 0xf1, // feedback: header, sender
///     0x00, 0x00, 0x0a, 0x01, 0x00, 0x09, 0x00, 0x01, // stream, begin_seq, num_reports
///     0x80, 0x00, 0x00, 0x00, 0x00, 0x05, 0x00, 0x00, // a metric, filler, RTS
/// ];
/// let datagram = Datagram::read(&octets)?;
/// assert_eq!(datagram.packets().count(), 2);
/// assert_eq!(datagram.feedback_count(), 1);
/// for packet in datagram.feedback() {
///     match packet {
///         Ok(packet) => println!("{} blocks, RTS {:08x}", packet.blocks().len(), packet.rts()),
///         Err(refusal) => eprintln!("{refusal}"),
///     }
/// }
/// # Ok::<(), Refusal>(())
/// ```
#[derive(Clone, Copy, Debug, PartialEq, Eq, Hash)]
pub struct Datagram<'a> {
    octets: &'a [u8],
    feedback_count: usize,
}

impl<'a> Datagram<'a> {
    /// Checks the headers of all packets of a datagram, which may be any octets. An empty slice
    /// holds no packet.
    ///
    /// If RTP shares the port, sort it out first: the second octet of RTCP is 192 to 223 (RFC
    /// 5761). SRTCP must be authenticated and decrypted first.
    ///
    /// # Errors
    ///
    /// [`Refusal::BadDatagram`] if 1 to 3 octets are left where a packet should start, a version is
    /// not 2, a length field reaches past the end, or a packet that does not end the datagram has
    /// the padding flag set.
    ///
    /// ```
    /// use ccfb::{Datagram, Refusal};
    ///
    /// let two_byes = [0x80, 203, 0, 0, 0x81, 203, 0, 1, 0, 0, 0, 7];
    /// assert!(Datagram::read(&two_byes).is_ok());
    /// assert_eq!(Datagram::read(&two_byes[..11]), Err(Refusal::BadDatagram));
    /// assert!(Datagram::read(&two_byes[..4]).is_ok());
    /// assert!(Datagram::read(&[]).is_ok());
    /// ```
    pub fn read(octets: &'a [u8]) -> Result<Datagram<'a>, Refusal> {
        let feedback_count = raw::feedback_count(octets)?;
        Ok(Datagram { octets, feedback_count })
    }

    /// The octets it was read from.
    pub fn octets(&self) -> &'a [u8] {
        self.octets
    }

    /// How many CCFB packets it holds. The header alone tells them: one that [`Packet::read`]
    /// refuses counts too.
    ///
    /// ```
    /// use ccfb::{Datagram, Refusal};
    ///
    /// let too_short = [0x8b, 0xcd, 0, 1, 0, 0, 0, 0xf1];
    /// let datagram = Datagram::read(&too_short)?;
    /// assert_eq!(datagram.feedback_count(), 1);
    /// assert_eq!(datagram.feedback_packet(0), Err(Refusal::PacketTooShort));
    /// # Ok::<(), Refusal>(())
    /// ```
    pub fn feedback_count(&self) -> usize {
        self.feedback_count
    }

    /// All packets, in one pass.
    ///
    /// ```
    /// use ccfb::{Datagram, Refusal};
    ///
    /// let datagram = Datagram::read(&[0x80, 203, 0, 0, 0x81, 203, 0, 1, 0, 0, 0, 7])?;
    /// let lengths: Vec<_> = datagram.packets().map(|packet| packet.octets().len()).collect();
    /// assert_eq!(lengths, [4, 8]);
    /// # Ok::<(), Refusal>(())
    /// ```
    pub fn packets(&self) -> RtcpPackets<'a> {
        RtcpPackets { datagram: self.octets, at: 0 }
    }

    /// The CCFB packets, in one pass: what [`Packet::read`] answers for each. A refused one does
    /// not hide the next, and `flatten()` leaves it out.
    ///
    /// ```
    /// use ccfb::{Datagram, Refusal};
    ///
    /// let octets = [
    ///     0x8b, 0xcd, 0, 2, 0, 0, 0, 0xf1, 0, 5, 0, 0, // no block
    ///     0xab, 0xcd, 0, 3, 0, 0, 0, 0xf1, 0, 5, 0, 0, 0, 0, 0, 4, // padded
    /// ];
    /// let mut feedback = Datagram::read(&octets)?.feedback();
    /// assert_eq!(feedback.len(), 2);
    /// assert_eq!(feedback.next().map(|packet| packet.map(|p| p.rts())), Some(Ok(0x0005_0000)));
    /// assert_eq!(feedback.next(), Some(Err(Refusal::Padded)));
    /// assert_eq!(feedback.next(), None);
    /// # Ok::<(), Refusal>(())
    /// ```
    pub fn feedback(&self) -> FeedbackPackets<'a> {
        FeedbackPackets { packets: self.packets(), left: self.feedback_count }
    }

    /// CCFB packet `k`, from 0. Each call walks the whole datagram: to read all CCFB packets, use
    /// [`feedback`](Datagram::feedback), which is one pass.
    ///
    /// # Errors
    ///
    /// [`Refusal::NoPacket`] if there are no more than `k`; then those of [`Packet::read`], except
    /// for those that [`Datagram::read`] rules out: [`Refusal::BadVersion`], [`Refusal::BadType`]
    /// and [`Refusal::BadLength`].
    ///
    /// ```
    /// use ccfb::{Datagram, Refusal};
    ///
    /// let octets = [0x80, 203, 0, 0, 0x8b, 0xcd, 0, 2, 0, 0, 0, 0xf1, 0, 5, 0, 0];
    /// let datagram = Datagram::read(&octets)?;
    /// assert_eq!(datagram.feedback_packet(0)?.octets(), &octets[4..]);
    /// assert_eq!(datagram.feedback_packet(1), Err(Refusal::NoPacket));
    /// # Ok::<(), Refusal>(())
    /// ```
    pub fn feedback_packet(&self, k: usize) -> Result<Packet<'a>, Refusal> {
        Packet::read(raw::feedback(self.octets, k)?)
    }
}

impl<'a> TryFrom<&'a [u8]> for Datagram<'a> {
    type Error = Refusal;

    fn try_from(octets: &'a [u8]) -> Result<Datagram<'a>, Refusal> {
        Datagram::read(octets)
    }
}

/// An RTCP packet of any type. Only its header was checked.
///
/// ```
/// use ccfb::{Datagram, Packet, Refusal};
///
/// let octets = [
///     0x81, 206, 0, 2, 0, 0, 0, 0xf1, 0, 0, 0x0a, 1, // a picture loss indication
///     0x8b, 205, 0, 2, 0, 0, 0, 0xf1, 0, 5, 0, 0, // CCFB
/// ];
/// for packet in Datagram::read(&octets)?.packets() {
///     match (packet.packet_type(), packet.format()) {
///         (206, 1) => println!("a new picture is asked for"),
///         _ if packet.is_ccfb() => println!("{:?}", Packet::read(packet.octets())),
///         (packet_type, _) => println!("type {packet_type}"),
///     }
/// }
/// # Ok::<(), Refusal>(())
/// ```
#[derive(Clone, Copy, Debug, PartialEq, Eq, Hash)]
pub struct RtcpPacket<'a> {
    pub(crate) packet_type: u8,
    pub(crate) format: u8,
    pub(crate) octets: &'a [u8],
}

impl<'a> RtcpPacket<'a> {
    /// Its type, the second octet: 200 for a sender report, for instance.
    pub fn packet_type(&self) -> u8 {
        self.packet_type
    }

    /// The lower five bits of its first octet: FMT in feedback (types 205 and 206), a subtype in
    /// APP (204), and in reports, SDES and BYE (200 to 203) a count.
    pub fn format(&self) -> u8 {
        self.format
    }

    /// All its octets, with header and padding.
    pub fn octets(&self) -> &'a [u8] {
        self.octets
    }

    /// Whether its padding flag is set. Only the last packet of a datagram may have it.
    pub fn is_padded(&self) -> bool {
        self.octets.first().is_some_and(|first| first & PADDING_FLAG != 0)
    }

    /// Whether it is a CCFB packet: of type 205 and FMT 11. Other feedback, such as NACK or PLI,
    /// is not.
    pub fn is_ccfb(&self) -> bool {
        (self.packet_type, self.format) == (CCFB_PACKET_TYPE, CCFB_FORMAT)
    }
}

/// All packets of a datagram: see [`Datagram::packets`].
#[derive(Clone, Debug)]
pub struct RtcpPackets<'a> {
    datagram: &'a [u8],
    at: usize,
}

impl<'a> Iterator for RtcpPackets<'a> {
    type Item = RtcpPacket<'a>;

    fn next(&mut self) -> Option<RtcpPacket<'a>> {
        raw::next_packet(self.datagram, &mut self.at).ok()
    }

    fn size_hint(&self) -> (usize, Option<usize>) {
        let left = self.datagram.len().saturating_sub(self.at);
        (usize::from(left > 0), Some(left / HEADER_OCTETS))
    }
}

impl FusedIterator for RtcpPackets<'_> {}

/// The CCFB packets of a datagram: see [`Datagram::feedback`].
#[derive(Clone, Debug)]
pub struct FeedbackPackets<'a> {
    packets: RtcpPackets<'a>,
    left: usize,
}

impl<'a> Iterator for FeedbackPackets<'a> {
    type Item = Result<Packet<'a>, Refusal>;

    fn next(&mut self) -> Option<Result<Packet<'a>, Refusal>> {
        let left = self.left.checked_sub(1)?;
        let packet = self.packets.find(RtcpPacket::is_ccfb)?;
        self.left = left;
        Some(Packet::read(packet.octets))
    }

    fn size_hint(&self) -> (usize, Option<usize>) {
        (self.left, Some(self.left))
    }
}

impl ExactSizeIterator for FeedbackPackets<'_> {}

impl FusedIterator for FeedbackPackets<'_> {}
