//! What the writer takes and returns.

use crate::raw;

/// What the packets of one report have in common.
#[derive(Clone, Copy, Debug, PartialEq, Eq, Hash)]
pub struct Report {
    /// The SSRC of the packets' sender.
    pub own: u32,
    /// The report timestamp, in 1/65536 s: the time now, as [`ntp_time`](crate::ntp_time) gives
    /// it. What arrived after it is reported without a time.
    pub rts: u32,
    /// The most octets that a packet may have, 24 to 9,000: see [`LIMITS`](crate::LIMITS).
    pub limit: usize,
}

/// The written packets: an iterator over the octets of each.
///
/// ```
/// use ccfb::{Mark, Refusal, Report, Store, Time};
///
/// let mut store = Store::<2>::new();
/// for ssrc in [7, 9] {
///     store.arrive(ssrc, 100, Mark::Ect0, Time::At(1))?;
///     store.arrive(ssrc, 103, Mark::Ect0, Time::At(2))?;
/// }
/// let requests: Vec<_> = store.streams().map(|stream| stream.all()).collect();
/// let report = Report { own: 1, rts: 66, limit: 32 };
/// let mut out = [0; 100];
/// let packets = store.write(report, &requests, &mut out)?;
/// assert_eq!(packets.octets().len(), 56);
/// assert_eq!(packets.map(|octets| octets.len()).collect::<Vec<_>>(), [28, 28]);
/// # Ok::<(), Refusal>(())
/// ```
#[derive(Clone, Debug)]
pub struct Packets<'o> {
    left: usize,
    octets: &'o [u8],
}

impl<'o> Packets<'o> {
    pub(crate) fn new(packets: usize, octets: &'o [u8]) -> Packets<'o> {
        Packets { left: packets, octets }
    }

    /// The octets of all packets that are still to come.
    pub fn octets(&self) -> &'o [u8] {
        self.octets
    }
}

impl<'o> Iterator for Packets<'o> {
    type Item = &'o [u8];

    fn next(&mut self) -> Option<&'o [u8]> {
        let left = self.left.checked_sub(1)?;
        let mut at = 0;
        let packet = raw::next_packet(self.octets, &mut at).ok()?;
        *self = Packets { left, octets: self.octets.get(at..)? };
        Some(packet.octets())
    }

    fn size_hint(&self) -> (usize, Option<usize>) {
        (self.left, Some(self.left))
    }
}

impl ExactSizeIterator for Packets<'_> {}

#[cfg(test)]
mod tests {
    use super::Packets;

    #[test]
    fn packets_that_are_not_whole_end_the_iterator() {
        for octets in [&[] as &[u8], &[0; 3], &[0x8b, 0xcd, 0, 2, 0, 0, 0, 0xf1, 0, 0, 0]] {
            assert_eq!(Packets::new(1, octets).next(), None);
        }
        let two = [0x8b, 0xcd, 0, 0, 0x8b, 0xcd, 0, 0];
        assert_eq!(Packets::new(1, &two).count(), 1);
        assert_eq!(Packets::new(3, &two).count(), 2);
    }
}
