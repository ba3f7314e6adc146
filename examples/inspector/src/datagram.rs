//! A datagram in readable form.

use crate::show;
use ccfb::{Datagram, Packet, RtcpPacket};

/// A CCFB packet alone by itself. Otherwise how many packets there are, and each below that.
pub fn readable(datagram: &Datagram) -> String {
    let packets: Vec<RtcpPacket> = datagram.packets().collect();
    let count = match packets[..] {
        [only] if only.is_ccfb() => return feedback(only),
        [_] => "1 packet".to_string(),
        _ => format!("{} packets", packets.len()),
    };
    let below: String = packets.into_iter().map(below).collect();
    format!("{} octets, {count}{below}", datagram.octets().len())
}

/// A packet below the line of its datagram, indented.
fn below(packet: RtcpPacket) -> String {
    let said = if packet.is_ccfb() { feedback(packet) } else { other(packet) };
    format!("\n{}, {said}", name(packet)).replace('\n', "\n  ")
}

/// What a CCFB packet says, or why it is refused.
fn feedback(packet: RtcpPacket) -> String {
    match Packet::read(packet.octets()) {
        Ok(packet) => show::packet(&packet),
        Err(refusal) => format!("{} octets, {refusal}", packet.octets().len()),
    }
}

fn other(packet: RtcpPacket) -> String {
    let padding = if packet.is_padded() { ", padded" } else { "" };
    format!("{} octets{padding}", packet.octets().len())
}

/// Its type by name and number, and its FMT if it is feedback.
fn name(packet: RtcpPacket) -> String {
    let (packet_type, format) = (packet.packet_type(), packet.format());
    let name = match packet_type {
        200 => "SR",
        201 => "RR",
        202 => "SDES",
        203 => "BYE",
        204 => "APP",
        205 if packet.is_ccfb() => "CCFB",
        205 => "RTPFB",
        206 => "PSFB",
        207 => "XR",
        _ => return format!("type {packet_type}"),
    };
    match packet_type {
        205 | 206 => format!("{name} (type {packet_type}, FMT {format})"),
        _ => format!("{name} (type {packet_type})"),
    }
}

#[cfg(test)]
mod tests {
    use super::*;

    const NO_BLOCK: [u8; 12] = [0x8b, 0xcd, 0, 2, 0, 0, 0, 0xf1, 0, 5, 0, 0];
    const NO_BLOCK_SHOWN: &str = "12 octets from 000000f1, RTS 00050000 (5.000 s), no block";

    fn shown(octets: &[u8]) -> String {
        readable(&Datagram::read(octets).expect("a datagram"))
    }

    #[test]
    fn a_ccfb_packet_alone_is_shown_by_itself() {
        assert_eq!(shown(&NO_BLOCK), NO_BLOCK_SHOWN);
        let refused = "4 octets, refused 21: packet shorter than 12 octets";
        assert_eq!(shown(&[0x8b, 0xcd, 0, 0]), refused);
    }

    #[test]
    fn each_type_has_a_line() {
        for (packet_type, name) in [
            (192, "type 192"),
            (200, "SR (type 200)"),
            (201, "RR (type 201)"),
            (202, "SDES (type 202)"),
            (203, "BYE (type 203)"),
            (204, "APP (type 204)"),
            (205, "RTPFB (type 205, FMT 1)"),
            (206, "PSFB (type 206, FMT 1)"),
            (207, "XR (type 207)"),
            (208, "type 208"),
        ] {
            let packet = [0x81, packet_type, 0, 0];
            assert_eq!(shown(&packet), format!("4 octets, 1 packet\n  {name}, 4 octets"));
        }
    }

    #[test]
    fn a_refused_packet_does_not_hide_the_others() {
        let octets = [&[0x8b, 0xcd, 0, 0], &NO_BLOCK[..], &[0xa0, 203, 0, 0]].concat();
        let lines = [
            "20 octets, 3 packets",
            "  CCFB (type 205, FMT 11), 4 octets, refused 21: packet shorter than 12 octets",
            &format!("  CCFB (type 205, FMT 11), {NO_BLOCK_SHOWN}"),
            "  BYE (type 203), 4 octets, padded",
        ];
        assert_eq!(shown(&octets), lines.join("\n"));
    }

    #[test]
    fn blocks_stand_below_their_packet() {
        let block = [0, 0, 0, 7, 0, 9, 0, 1, 0, 0, 0, 0];
        let octets =
            [&[0x80, 203, 0, 0, 0x8b, 0xcd, 0, 5, 0, 0, 0, 1], &block[..], &[0; 4]].concat();
        let lines = shown(&octets);
        let starts: Vec<&str> = lines.lines().map(|line| &line[..8]).collect();
        assert_eq!(
            starts,
            ["28 octet", "  BYE (t", "  CCFB (", "    stre", "        ", "        "]
        );
    }
}
