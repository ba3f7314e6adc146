//! Reading a packet, and rewriting it.

use crate::{raw, Metric, Refusal};

/// A CCFB packet that was checked as a whole: a view of the received octets.
///
/// [`Datagram::feedback`](crate::Datagram::feedback) finds the CCFB packets of a received datagram.
/// To read octets that are one packet, call [`Packet::read`]:
///
/// ```
/// use ccfb::{Mark, Metric, Packet, Refusal};
///
/// let octets = [
///     0x8b, 0xcd, 0x00, 0x06, 0x00, 0x00, 0x00, 0xf1, // header, sender
///     0x00, 0x00, 0x0a, 0x01, 0xff, 0xfd, 0x00, 0x04, // stream, begin_seq, num_reports
///     0x00, 0x00, 0xc2, 0x00, 0x00, 0x00, 0xe0, 0x00, // four metrics
///     0x00, 0x05, 0x00, 0x00, // RTS
/// ];
/// let packet = Packet::read(&octets)?;
/// assert_eq!((packet.sender(), packet.rts()), (0xf1, 0x0005_0000));
/// assert_eq!(packet.octets(), octets);
/// for block in packet.blocks() {
///     for (number, metric) in block.metrics() {
///         println!("{:08x} {number}: {metric:?}", block.ssrc());
///     }
/// }
/// assert_eq!(packet.metric(0, 3), Ok((0, Metric::Received { mark: Mark::Ce, offset: 0 })));
/// assert_eq!(packet.metric(0, 4), Err(Refusal::NoNumber));
/// # Ok::<(), Refusal>(())
/// ```
#[derive(Clone, Copy, Debug, PartialEq, Eq, Hash)]
pub struct Packet<'a> {
    octets: &'a [u8],
    sender: u32,
    rts: u32,
    blocks: usize,
}

impl<'a> Packet<'a> {
    /// Checks the whole packet, which may be any octets.
    ///
    /// # Errors
    ///
    /// The first that holds of [`Refusal::PacketTooShort`], [`Refusal::BadVersion`],
    /// [`Refusal::BadType`], [`Refusal::BadLength`] and [`Refusal::Padded`]; then, block by block,
    /// [`Refusal::RunsIntoRts`] (its header), [`Refusal::TooManyReports`],
    /// [`Refusal::RunsIntoRts`] (its metrics) and [`Refusal::FillerNotZero`].
    ///
    /// ```
    /// use ccfb::{Packet, Refusal};
    ///
    /// let mut octets = [0x8b, 0xcd, 0, 2, 0, 0, 0, 0xf1, 0, 5, 0, 0];
    /// assert!(Packet::read(&octets).is_ok());
    /// octets[0] = 0xab;
    /// assert_eq!(Packet::read(&octets), Err(Refusal::Padded));
    /// ```
    pub fn read(octets: &'a [u8]) -> Result<Packet<'a>, Refusal> {
        let (sender, rts, blocks) = raw::read(octets)?;
        Ok(Packet { octets, sender, rts, blocks })
    }

    /// The octets it was read from.
    pub fn octets(&self) -> &'a [u8] {
        self.octets
    }

    /// The SSRC of the packet's sender.
    pub fn sender(&self) -> u32 {
        self.sender
    }

    /// The report timestamp, in 1/65536 s.
    pub fn rts(&self) -> u32 {
        self.rts
    }

    /// The report blocks, in time linear in the octets.
    ///
    /// ```
    /// let packet = ccfb::Packet::read(&[0x8b, 0xcd, 0, 2, 0, 0, 0, 0xf1, 0, 5, 0, 0])?;
    /// assert_eq!(packet.blocks().len(), 0);
    /// # Ok::<(), ccfb::Refusal>(())
    /// ```
    pub fn blocks(&self) -> Blocks<'a> {
        let at = raw::first_block(self.octets).unwrap_or(self.octets.len());
        Blocks { octets: self.octets, at, left: self.blocks }
    }

    /// Block `k`, from 0. To read all blocks, [`blocks`](Packet::blocks) is quicker.
    ///
    /// # Errors
    ///
    /// [`Refusal::NoBlock`].
    ///
    /// ```
    /// use ccfb::{Packet, Refusal};
    ///
    /// let packet = Packet::read(&[
    ///     0x8b, 0xcd, 0, 4, 0, 0, 0, 0xf1, 0, 0, 0x0a, 1, 0, 9, 0, 0, 0, 5, 0, 0,
    /// ])?;
    /// assert_eq!(packet.block(0)?.begin(), 9);
    /// assert_eq!(packet.block(1), Err(Refusal::NoBlock));
    /// # Ok::<(), Refusal>(())
    /// ```
    pub fn block(&self, k: usize) -> Result<Block<'a>, Refusal> {
        raw::block(self.octets, k)
    }

    /// Metric `j` of block `k`, both from 0, with its sequence number.
    ///
    /// # Errors
    ///
    /// [`Refusal::NoBlock`], [`Refusal::NoNumber`].
    pub fn metric(&self, k: usize, j: usize) -> Result<(u16, Metric), Refusal> {
        raw::metric(self.octets, k, j)
    }
}

impl<'a> TryFrom<&'a [u8]> for Packet<'a> {
    type Error = Refusal;

    fn try_from(octets: &'a [u8]) -> Result<Packet<'a>, Refusal> {
        Packet::read(octets)
    }
}

/// The report blocks of a packet.
#[derive(Clone, Debug)]
pub struct Blocks<'a> {
    octets: &'a [u8],
    at: usize,
    left: usize,
}

impl<'a> Iterator for Blocks<'a> {
    type Item = Block<'a>;

    fn next(&mut self) -> Option<Block<'a>> {
        let left = self.left.checked_sub(1)?;
        let block = raw::next_block(self.octets, &mut self.at).ok()?;
        self.left = left;
        Some(block)
    }

    fn size_hint(&self) -> (usize, Option<usize>) {
        (self.left, Some(self.left))
    }
}

impl ExactSizeIterator for Blocks<'_> {}

/// A report block: what is said of `count` numbers of a stream, starting at `begin`; 0 follows
/// 65535.
///
/// ```
/// use ccfb::{Metric, Packet, Refusal};
///
/// let packet = Packet::read(&[
///     0x8b, 0xcd, 0, 5, 0, 0, 0, 0xf1, 0, 0, 0x0a, 1, 0, 9, 0, 1, 0, 0, 0, 0, 0, 5, 0, 0,
/// ])?;
/// let block = packet.block(0)?;
/// assert_eq!((block.ssrc(), block.begin(), block.count()), (0x0a01, 9, 1));
/// assert_eq!(block.metrics().collect::<Vec<_>>(), [(9, Metric::NotReceived)]);
/// assert_eq!(block.metric(0), Ok(Metric::NotReceived));
/// assert_eq!(block.metric(1), Err(Refusal::NoNumber));
/// assert_eq!(block.part(), [0, 0]);
/// # Ok::<(), Refusal>(())
/// ```
#[derive(Clone, Copy, Debug, PartialEq, Eq, Hash)]
pub struct Block<'a> {
    pub(crate) ssrc: u32,
    pub(crate) begin: u16,
    pub(crate) count: u16,
    pub(crate) part: &'a [u8],
}

impl<'a> Block<'a> {
    /// The stream's SSRC.
    pub fn ssrc(&self) -> u32 {
        self.ssrc
    }

    /// The first number, begin_seq.
    pub fn begin(&self) -> u16 {
        self.begin
    }

    /// How many numbers, num_reports.
    pub fn count(&self) -> u16 {
        self.count
    }

    /// The part of the packet that holds the metrics, 2 octets for each number.
    pub fn part(&self) -> &'a [u8] {
        self.part
    }

    /// Metric `j`, from 0.
    ///
    /// # Errors
    ///
    /// [`Refusal::NoNumber`].
    pub fn metric(&self, j: usize) -> Result<Metric, Refusal> {
        raw::metric_at(self.part, j)
    }

    /// Decodes all metrics at once, the quickest way to read a block of 16 numbers or more. Entry
    /// `j` is of the number `begin().wrapping_add(j)`: `kinds[j]` is one of [`kind`](crate::kind),
    /// `marks[j]` is as [`Mark::number`](crate::Mark::number), and `offsets[j]` counts 1/1024 s.
    /// Each slice needs [`count`](Block::count) entries. Returns how many were written; those
    /// after them stay as they were.
    ///
    /// Where the kind has no mark or no offset, 0 is written. So look at the kind first: a mark of
    /// 0 is not-ECT only if the kind is not `NOT_RECEIVED`, and an offset of 0 is a delay only if
    /// it is `RECEIVED`.
    ///
    /// # Errors
    ///
    /// [`Refusal::OutputTooShort`] if a slice has fewer entries than the block has numbers; all
    /// three then stay as they were.
    ///
    /// ```
    /// use ccfb::{kind, Packet, Refusal};
    ///
    /// let packet = Packet::read(&[
    ///     0x8b, 0xcd, 0, 6, 0, 0, 0, 0xf1, 0, 0, 0x0a, 1, 0, 9, 0, 3, // header to num_reports
    ///     0xc2, 0, 0, 0, 0xff, 0xfe, 0, 0, 0, 5, 0, 0, // three metrics, filler, RTS
    /// ])?;
    /// let block = packet.block(0)?;
    /// let (mut kinds, mut marks, mut offsets) = ([0; 3], [0; 3], [0; 3]);
    /// assert_eq!(block.decode_metrics(&mut kinds, &mut marks, &mut offsets), Ok(3));
    /// assert_eq!(kinds, [kind::RECEIVED, kind::NOT_RECEIVED, kind::OVER_RANGE]);
    /// assert_eq!((marks, offsets), ([2, 0, 3], [512, 0, 0]));
    ///
    /// let short = block.decode_metrics(&mut kinds, &mut marks[..2], &mut offsets);
    /// assert_eq!(short, Err(Refusal::OutputTooShort));
    /// # Ok::<(), Refusal>(())
    /// ```
    pub fn decode_metrics(
        &self,
        kinds: &mut [u8],
        marks: &mut [u8],
        offsets: &mut [u16],
    ) -> Result<usize, Refusal> {
        raw::decode_metrics(self.part, kinds, marks, offsets)?;
        Ok(self.count.into())
    }

    /// Each number with its metric.
    pub fn metrics(&self) -> Metrics<'a> {
        Metrics { block: *self, left: self.count }
    }
}

/// The numbers of a block, each with its metric.
#[derive(Clone, Debug)]
pub struct Metrics<'a> {
    block: Block<'a>,
    left: u16,
}

impl Iterator for Metrics<'_> {
    type Item = (u16, Metric);

    fn next(&mut self) -> Option<(u16, Metric)> {
        let left = self.left.checked_sub(1)?;
        let j = self.block.count - self.left;
        let metric = self.block.metric(j.into()).ok()?;
        self.left = left;
        Some((self.block.begin.wrapping_add(j), metric))
    }

    fn size_hint(&self) -> (usize, Option<usize>) {
        (self.left.into(), Some(self.left.into()))
    }
}

impl ExactSizeIterator for Metrics<'_> {}

/// Copies a packet to the start of `out` and clears the bits that a reader ignores: those of
/// metrics that say "not received". Returns how many octets; the rest of `out` stays as it was.
///
/// # Errors
///
/// Those of [`Packet::read`], then [`Refusal::OutputTooShort`].
///
/// ```
/// use ccfb::{rewrite, Refusal};
///
/// let mut packet =
///     [0x8b, 0xcd, 0, 5, 0, 0, 0, 0xf1, 0, 0, 0x0a, 1, 0, 9, 0, 1, 0x7f, 0xff, 0, 0, 0, 5, 0, 0];
/// let mut out = [0; 24];
/// assert_eq!(rewrite(&packet, &mut out), Ok(24));
/// packet[16..18].fill(0);
/// assert_eq!(out, packet);
/// assert_eq!(rewrite(&packet, &mut out[..23]), Err(Refusal::OutputTooShort));
/// ```
pub fn rewrite(packet: &[u8], out: &mut [u8]) -> Result<usize, Refusal> {
    raw::rewrite(packet, out)
}
