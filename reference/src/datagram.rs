//! A datagram: RTCP packets back to back (RFC 3550, section 6.1 and appendix A.2), of any type and
//! in any order (RFC 5506). It is cut into a list of packets; the other rules are about the list.

use crate::packet::{self, Packet};
use crate::refusal::Refusal;

/// An RTCP packet of any type, and the octet of its datagram where it starts.
#[derive(Clone, Copy, Debug, PartialEq, Eq)]
pub struct RtcpPacket<'a> {
    pub at: usize,
    pub octets: &'a [u8],
}

impl RtcpPacket<'_> {
    /// The bits of the first octet: two of version, the padding flag, and five that are FMT in
    /// feedback and a count in most other types.
    fn first_bits(&self) -> String {
        format!("{:08b}", self.octets[0])
    }

    fn is_padded(&self) -> bool {
        self.first_bits()[2..3] != *packet::NO_PADDING
    }

    pub fn format(&self) -> u8 {
        u8::from_str_radix(&self.first_bits()[3..8], 2).expect("five bits")
    }

    pub fn packet_type(&self) -> u8 {
        self.octets[1]
    }

    /// Whether it has version 2 and is as long as its length field says: the words after the first.
    fn is_whole(&self) -> bool {
        let words_after = usize::from(self.octets[2]) * 256 + usize::from(self.octets[3]);
        self.octets[4..].len() == 4 * words_after && self.first_bits()[0..2] == *packet::VERSION
    }

    /// Whether its header is that of a CCFB packet.
    pub fn is_ccfb(&self) -> bool {
        self.packet_type() == packet::TYPE && self.first_bits()[3..8] == *packet::FMT
    }
}

/// The packet that starts at `at`. Every length is tried; the length field fits one at most.
fn packet_at(datagram: &[u8], at: usize) -> Result<RtcpPacket<'_>, Refusal> {
    let rest = &datagram[at..];
    (4..=rest.len())
        .map(|length| RtcpPacket { at, octets: &rest[..length] })
        .find(RtcpPacket::is_whole)
        .ok_or(Refusal::BadDatagram)
}

/// The packets of a datagram. Only the last may be padded.
pub fn packets(datagram: &[u8]) -> Result<Vec<RtcpPacket<'_>>, Refusal> {
    let mut packets = Vec::new();
    let mut at = 0;
    while at < datagram.len() {
        let packet = packet_at(datagram, at)?;
        at += packet.octets.len();
        packets.push(packet);
    }
    match packets.split_last() {
        Some((_, earlier)) if earlier.iter().any(RtcpPacket::is_padded) => {
            Err(Refusal::BadDatagram)
        }
        _ => Ok(packets),
    }
}

/// The CCFB packets of a datagram, also those that the reader refuses.
pub fn feedback(datagram: &[u8]) -> Result<Vec<RtcpPacket<'_>>, Refusal> {
    Ok(packets(datagram)?.into_iter().filter(RtcpPacket::is_ccfb).collect())
}

/// CCFB packet `k` of those of a datagram, and what the reader reads in it.
pub fn readable<'a>(
    feedback: &[RtcpPacket<'a>],
    k: usize,
) -> Result<(RtcpPacket<'a>, Packet), Refusal> {
    let packet = feedback.get(k).ok_or(Refusal::NoPacket)?;
    Ok((*packet, packet::parse(packet.octets)?))
}

/// The packet that starts at `at`. A padded packet that does not end the datagram is refused; the
/// values of the octets before and behind the packet do not matter.
pub fn next_packet(datagram: &[u8], at: usize) -> Result<RtcpPacket<'_>, Refusal> {
    if at >= datagram.len() {
        return Err(Refusal::NoPacket);
    }
    let packet = packet_at(datagram, at)?;
    let behind = &datagram[at + packet.octets.len()..];
    if packet.is_padded() && !behind.is_empty() {
        return Err(Refusal::BadDatagram);
    }
    Ok(packet)
}

#[cfg(test)]
mod tests {
    use super::*;

    const REPORT: [u8; 8] = [0x80, 201, 0, 1, 0, 0, 0, 1];
    const BYE: [u8; 4] = [0x80, 203, 0, 0];
    const EMPTY: [u8; 12] = [0x8B, 205, 0, 2, 0, 0, 0, 1, 0, 0, 0, 2];
    /// The header of a CCFB packet and no more.
    const HEADER: [u8; 4] = [0x8B, 205, 0, 0];
    const NACK: [u8; 12] = [0x81, 205, 0, 2, 0, 0, 0, 1, 0, 0, 0, 2];

    /// Starts at 0, 8, 20, 32 and 36.
    fn compound() -> Vec<u8> {
        [&REPORT[..], &NACK, &EMPTY, &HEADER, &BYE].concat()
    }

    fn changed(at: usize, to: u8) -> Vec<u8> {
        let mut datagram = compound();
        datagram[at] = to;
        datagram
    }

    fn count(datagram: &[u8]) -> Result<usize, Refusal> {
        feedback(datagram).map(|feedback| feedback.len())
    }

    /// Where CCFB packet `k` starts, and how long it is.
    fn part(datagram: &[u8], k: usize) -> Result<(usize, usize), Refusal> {
        readable(&feedback(datagram)?, k).map(|(packet, _)| (packet.at, packet.octets.len()))
    }

    #[test]
    fn compound_and_reduced_size() {
        assert_eq!(count(&compound()), Ok(2));
        assert_eq!(part(&compound(), 0), Ok((20, 12)));
        assert_eq!(part(&compound(), 1), Err(Refusal::PacketTooShort));
        assert_eq!(part(&compound(), 2), Err(Refusal::NoPacket));
        assert_eq!(part(&EMPTY, 0), Ok((0, 12)));
        assert_eq!(count(&[]), Ok(0));
        assert_eq!(part(&[], 0), Err(Refusal::NoPacket));
    }

    #[test]
    fn the_header_alone_tells() {
        assert_eq!(count(&changed(20, 0x8A)), Ok(1));
        assert_eq!(count(&changed(8, 0x8B)), Ok(3));
        assert_eq!(count(&changed(21, 206)), Ok(1));
        assert_eq!(count(&changed(37, 205)), Ok(2), "FMT 0");
    }

    #[test]
    fn padding() {
        assert_eq!(count(&changed(36, 0xA0)), Ok(2), "on the last packet");
        for start in [0, 8, 20, 32] {
            assert_eq!(count(&changed(start, 0xA0)), Err(Refusal::BadDatagram));
        }
        let mut padded = EMPTY;
        padded[0] |= 0x20;
        assert_eq!(count(&padded), Ok(1));
        assert_eq!(part(&padded, 0), Err(Refusal::Padded));
    }

    #[test]
    fn faults() {
        for start in [0, 8, 20, 32, 36] {
            for first in [0x0B, 0x4B, 0xCB] {
                assert_eq!(count(&changed(start, first)), Err(Refusal::BadDatagram));
            }
        }
        assert_eq!(count(&changed(39, 1)), Err(Refusal::BadDatagram), "one word past the end");
        assert_eq!(part(&changed(36, 0), 0), Err(Refusal::BadDatagram), "behind packet 0");
        assert_eq!(
            part(&changed(36, 0), 9),
            Err(Refusal::BadDatagram),
            "before there is no packet"
        );
        for left in 1..4 {
            assert_eq!(count(&compound()[..36 + left]), Err(Refusal::BadDatagram));
        }
        assert_eq!(count(&compound()[..36]), Ok(2));
    }

    #[test]
    fn the_walk_finds_the_same_packets() {
        let datagram = compound();
        let mut walked = Vec::new();
        let mut at = 0;
        while let Ok(packet) = next_packet(&datagram, at) {
            at += packet.octets.len();
            walked.push(packet);
        }
        assert_eq!(packets(&datagram), Ok(walked.clone()));
        let fields: Vec<(u8, u8)> = walked.iter().map(|p| (p.packet_type(), p.format())).collect();
        assert_eq!(fields, [(201, 0), (205, 1), (205, 11), (205, 11), (203, 0)]);
    }

    #[test]
    fn the_walk_looks_at_one_packet() {
        let datagram = changed(32, 0xAB);
        assert_eq!(next_packet(&datagram, 20).map(|packet| packet.at), Ok(20));
        assert_eq!(next_packet(&datagram, 32), Err(Refusal::BadDatagram), "padded, and not last");
        assert_eq!(next_packet(&datagram, 36).map(|packet| packet.at), Ok(36));
        assert_eq!(next_packet(&datagram, 37), Err(Refusal::BadDatagram));
        for at in [40, 41, usize::MAX] {
            assert_eq!(next_packet(&datagram, at), Err(Refusal::NoPacket));
        }
        assert_eq!(next_packet(&[], 0), Err(Refusal::NoPacket));
    }
}
