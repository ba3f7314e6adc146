//! Random datagrams, and faults to put into them.

use super::packets::{packet_of, put_body_fault, set_length, small_counts};
use crate::rng::Rng;

/// The first octet has the version in two bits, the padding flag in one, and FMT or a count.
const VERSION_2: u8 = 0x80;
const PADDING_FLAG: u8 = 0x20;
const FORMATS: u64 = 32;

/// Types of packets (RFC 3550 and RFC 4585).
const SENDER_REPORT: u8 = 200;
const RECEIVER_REPORT: u8 = 201;
const SOURCE_DESCRIPTION: u8 = 202;
const BYE: u8 = 203;
const APPLICATION: u8 = 204;
const TRANSPORT_FEEDBACK: u8 = 205;
const PAYLOAD_FEEDBACK: u8 = 206;

/// FMT of CCFB packets, and some of other transport feedback.
const CCFB: u8 = 11;
const OTHER_FORMATS: [u8; 8] = [0, 1, 3, 9, 10, 12, 15, 27];

pub struct Datagram {
    pub octets: Vec<u8>,
    /// Where its packets start.
    pub starts: Vec<usize>,
}

/// A datagram without faults: compound, of reduced size, of any packets, or empty.
pub fn random_datagram(rng: &mut Rng) -> Datagram {
    let mut packets: Vec<Vec<u8>> = match rng.below(8) {
        0 => (0..rng.below(3)).map(|_| random_feedback(rng)).collect(),
        1..=3 => compound(rng),
        _ => (0..rng.below(8)).map(|_| random_packet(rng)).collect(),
    };
    if let Some(last) = packets.last_mut().filter(|_| rng.one_in(4)) {
        pad(rng, last);
    }
    let mut datagram = Datagram { octets: Vec::new(), starts: Vec::new() };
    for packet in packets {
        datagram.starts.push(datagram.octets.len());
        datagram.octets.extend(packet);
    }
    datagram
}

/// A report and a source description before the feedback, as RFC 3550 asks for.
fn compound(rng: &mut Rng) -> Vec<Vec<u8>> {
    let report = rng.pick(&[SENDER_REPORT, RECEIVER_REPORT]);
    let mut packets = vec![packet_of_type(rng, report), packet_of_type(rng, SOURCE_DESCRIPTION)];
    packets.extend((0..1 + rng.below(3)).map(|_| random_feedback(rng)));
    if rng.one_in(4) {
        packets.push(packet_of_type(rng, BYE));
    }
    packets
}

fn random_packet(rng: &mut Rng) -> Vec<u8> {
    if rng.one_in(2) {
        random_feedback(rng)
    } else {
        other_packet(rng)
    }
}

/// A packet that is not a CCFB packet, without padding.
pub fn other_packet(rng: &mut Rng) -> Vec<u8> {
    let any = rng.below(256) as u8;
    let packet_type = match rng.below(9) {
        0 => SENDER_REPORT,
        1 => RECEIVER_REPORT,
        2 => SOURCE_DESCRIPTION,
        3 => BYE,
        4 => APPLICATION,
        5 | 6 => TRANSPORT_FEEDBACK,
        7 => PAYLOAD_FEEDBACK,
        _ => any,
    };
    packet_of_type(rng, packet_type)
}

/// A packet of that type with a random body. Transport feedback is not CCFB.
fn packet_of_type(rng: &mut Rng, packet_type: u8) -> Vec<u8> {
    let few = rng.below(6);
    let count = rng.below(4);
    let (format, body_words) = match packet_type {
        SENDER_REPORT => (count, 6 + 6 * count),
        RECEIVER_REPORT => (count, 1 + 6 * count),
        SOURCE_DESCRIPTION | BYE => (count, count + few),
        TRANSPORT_FEEDBACK => (u64::from(rng.pick(&OTHER_FORMATS)), 2 + few),
        _ => (u64::from(any_format(rng)), few),
    };
    rtcp(rng, format as u8, packet_type, body_words)
}

/// A packet with the header of a CCFB packet. The reader refuses about half of them.
fn random_feedback(rng: &mut Rng) -> Vec<u8> {
    let body_words = rng.below(8);
    match rng.below(8) {
        0 => rtcp(rng, CCFB, TRANSPORT_FEEDBACK, body_words % 3),
        1 => rtcp(rng, CCFB, TRANSPORT_FEEDBACK, body_words),
        kind => {
            let counts = small_counts(rng);
            let mut octets = packet_of(rng, &counts).octets();
            if kind < 5 {
                put_body_fault(rng, &mut octets, &counts);
            }
            octets
        }
    }
}

fn rtcp(rng: &mut Rng, format: u8, packet_type: u8, body_words: u64) -> Vec<u8> {
    let mut octets = vec![VERSION_2 | format, packet_type, 0, 0];
    octets.extend(short_headers(rng, body_words));
    set_length(&mut octets);
    octets
}

/// Words of which most look like the header of a short packet: a walk that takes a wrong length
/// goes on through them.
pub fn short_headers(rng: &mut Rng, count: u64) -> Vec<u8> {
    let word = |_| if rng.one_in(8) { rng.u32().to_be_bytes() } else { short_header(rng) };
    (0..count).flat_map(word).collect()
}

/// Any FMT or count, often that of CCFB.
fn any_format(rng: &mut Rng) -> u8 {
    let any = rng.below(FORMATS) as u8;
    rng.pick(&[CCFB, any])
}

fn short_header(rng: &mut Rng) -> [u8; 4] {
    let format = any_format(rng);
    let padding_flag = if rng.one_in(16) { PADDING_FLAG } else { 0 };
    let packet_type = rng.pick(&[BYE, TRANSPORT_FEEDBACK, TRANSPORT_FEEDBACK, PAYLOAD_FEEDBACK]);
    [VERSION_2 | padding_flag | format, packet_type, 0, rng.below(5) as u8]
}

/// Sets the padding flag and adds up to two words, whose last octet need not count them.
fn pad(rng: &mut Rng, packet: &mut Vec<u8>) {
    packet[0] |= PADDING_FLAG;
    let added = rng.below(3);
    packet.extend(short_headers(rng, added));
    set_length(packet);
}

/// The fields of a header, and two ways to damage the length.
#[derive(Clone, Copy)]
pub enum Fault {
    Version,
    PaddingFlag,
    Format,
    Type,
    Longer,
    Shorter,
}

pub const FAULTS: [Fault; 6] =
    [Fault::Version, Fault::PaddingFlag, Fault::Format, Fault::Type, Fault::Longer, Fault::Shorter];

/// Puts a fault into the header that starts at `start`.
pub fn put_fault(rng: &mut Rng, datagram: &mut [u8], start: usize, fault: Fault) {
    let words_left = ((datagram.len() - start) / 4) as u16;
    let header = &mut datagram[start..start + 4];
    let field = u16::from_be_bytes([header[2], header[3]]);
    let (any, any_shorter) = (rng.u16(), rng.below(u64::from(field) + 1) as u16);
    match fault {
        Fault::Version => header[0] ^= rng.pick(&[0x40, 0x80, 0xC0]),
        Fault::PaddingFlag => header[0] ^= PADDING_FLAG,
        Fault::Format => header[0] = header[0] / 32 * 32 + any_format(rng),
        Fault::Type => header[1] = rng.pick(&[TRANSPORT_FEEDBACK, PAYLOAD_FEEDBACK, any as u8]),
        Fault::Longer => {
            // Among others: up to the end of the datagram, and one word past it.
            let one_more = field.saturating_add(1);
            let to = [one_more, words_left - 1, words_left, u16::MAX, any];
            header[2..].copy_from_slice(&rng.pick(&to).to_be_bytes());
        }
        Fault::Shorter => {
            let to = [field.saturating_sub(1), 0, any_shorter];
            header[2..].copy_from_slice(&rng.pick(&to).to_be_bytes());
        }
    }
}

/// Cuts the datagram short, or adds octets to it.
pub fn damage_end(rng: &mut Rng, datagram: &mut Vec<u8>) {
    let length = datagram.len();
    match rng.below(4) {
        0 => datagram.truncate(length.saturating_sub(1 + rng.below(8) as usize)),
        1 => datagram.truncate(rng.below(length as u64 + 1) as usize),
        2 => datagram.extend(std::iter::repeat_n(VERSION_2, 1 + rng.below(3) as usize)),
        _ => {
            let added = 1 + rng.below(3);
            datagram.extend(short_headers(rng, added));
        }
    }
}
