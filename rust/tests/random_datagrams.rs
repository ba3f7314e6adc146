//! Random datagrams, whole and damaged, beside a walk that is written from the rules alone: which
//! are refused, the packets of the others, and the answers about the feedback in them.

#[path = "common/random.rs"]
mod random;

use ccfb::{Datagram, Packet, Refusal};
use random::Random;
use std::collections::BTreeMap;

const DATAGRAMS: usize = 20_000;

/// Of each so many datagrams one is cut at every octet.
const CUT_ONE_IN: u64 = 20;

/// The padding flag of a packet's first octet.
const PADDING: u8 = 0x20;

/// A packet of so many words behind its header.
fn packet(first: u8, packet_type: u8, words: &[[u8; 4]]) -> Vec<u8> {
    let [high, low] = (words.len() as u16).to_be_bytes();
    [&[first, packet_type, high, low], words.as_flattened()].concat()
}

fn word(random: &mut Random) -> [u8; 4] {
    (random.below(1 << 32) as u32).to_be_bytes()
}

fn words(random: &mut Random, below: u64) -> Vec<[u8; 4]> {
    (0..random.below(below)).map(|_| word(random)).collect()
}

/// SR to XR, or any type; the FMT may be that of CCFB.
fn other_packet(random: &mut Random) -> Vec<u8> {
    let packet_type = if random.one_in(4) { random.below(256) } else { 200 + random.below(8) };
    let format = if random.one_in(4) { 11 } else { random.below(32) };
    packet(0x80 + format as u8, packet_type as u8, &words(random, 8))
}

/// A CCFB packet of a few blocks, or of any words. A filler may be wrong.
fn feedback_packet(random: &mut Random) -> Vec<u8> {
    if random.one_in(3) {
        return packet(0x8b, 205, &words(random, 8));
    }
    let mut inside = vec![word(random)];
    for _ in 0..random.below(3) {
        let reports = random.below(6) as u8;
        inside.extend([word(random), [0, 9, 0, reports]]);
        inside.extend((0..reports / 2).map(|_| word(random)));
        if reports % 2 == 1 {
            inside.push([0x80, 7, 0, random.one_in(4).into()]);
        }
    }
    inside.push(word(random));
    packet(0x8b, 205, &inside)
}

/// Packets back to back. The last may have the padding flag.
fn datagram(random: &mut Random) -> Vec<u8> {
    let (mut octets, mut last) = (Vec::new(), 0);
    for _ in 0..random.below(6) {
        last = octets.len();
        let feedback = random.one_in(2);
        octets.extend(if feedback { feedback_packet(random) } else { other_packet(random) });
    }
    if let (true, Some(first)) = (random.one_in(8), octets.get_mut(last)) {
        *first |= PADDING;
    }
    octets
}

/// Changes an octet, most often one of the first header, or the datagram's length.
fn damage(random: &mut Random, octets: &mut Vec<u8>) {
    let near = if random.one_in(2) { 4 } else { octets.len() };
    let at = random.below(near.min(octets.len()) as u64 + 1) as usize;
    match (random.below(5), octets.get_mut(at)) {
        (0, Some(octet)) => *octet ^= PADDING,
        (1, Some(octet)) => *octet = octet.wrapping_add(1),
        (2, Some(octet)) => *octet = random.below(256) as u8,
        (3, _) => octets.truncate(at),
        _ => octets.extend(vec![0x80; random.below(9) as usize]),
    }
}

/// The packets, if the octets are a datagram: each of version 2, as long as its length field says,
/// and without the padding flag unless it is the last.
fn walk(octets: &[u8]) -> Option<Vec<&[u8]>> {
    if octets.is_empty() {
        return Some(Vec::new());
    }
    let &[first, _, high, low, ..] = octets else { return None };
    let length = 4 * (1 + usize::from(high) * 256 + usize::from(low));
    let (packet, rest) = octets.split_at_checked(length)?;
    if first / 64 != 2 || (first & PADDING != 0 && !rest.is_empty()) {
        return None;
    }
    Some([vec![packet], walk(rest)?].concat())
}

/// How often each answer came; that of an accepted CCFB packet is 0.
#[derive(Default)]
struct Seen(BTreeMap<u8, usize>);

impl Seen {
    fn answer<T>(&mut self, answer: &Result<T, Refusal>) {
        let number = answer.as_ref().err().map_or(0, |refusal| refusal.number());
        *self.0.entry(number).or_default() += 1;
    }
}

fn check(octets: &[u8], seen: &mut Seen) {
    let datagram = Datagram::read(octets);
    let Some(packets) = walk(octets) else {
        assert_eq!(datagram, Err(Refusal::BadDatagram), "{octets:02x?}");
        return seen.answer(&datagram);
    };
    let datagram = datagram.unwrap_or_else(|refusal| panic!("{refusal}: {octets:02x?}"));
    let mut found = datagram.packets();
    for octets in &packets {
        let packet = found.next().expect("as many packets");
        assert_eq!(packet.octets(), *octets);
        assert_eq!((packet.packet_type(), packet.format()), (octets[1], octets[0] % 32));
        assert_eq!(packet.is_ccfb(), octets[1] == 205 && octets[0] % 32 == 11);
    }
    assert_eq!((found.next(), found.next()), (None, None));
    let joined: Vec<u8> = datagram.packets().flat_map(|packet| packet.octets()).copied().collect();
    assert_eq!(joined, octets);
    check_feedback(datagram, seen);
}

fn check_feedback(datagram: Datagram, seen: &mut Seen) {
    let of_ccfb = datagram.packets().filter(|packet| packet.is_ccfb());
    let expected: Vec<_> = of_ccfb.map(|packet| Packet::read(packet.octets())).collect();
    assert_eq!(datagram.feedback_count(), expected.len());
    assert_eq!(datagram.feedback().len(), expected.len());
    assert_eq!(datagram.feedback().collect::<Vec<_>>(), expected);
    for (k, packet) in expected.iter().enumerate() {
        assert_eq!(datagram.feedback_packet(k), *packet);
        seen.answer(packet);
    }
    for k in [expected.len(), expected.len() + 1, usize::MAX] {
        assert_eq!(datagram.feedback_packet(k), Err(Refusal::NoPacket));
    }
}

#[test]
fn random_datagrams() {
    let (mut random, mut seen) = (Random(1), Seen::default());
    for _ in 0..DATAGRAMS {
        let mut octets = datagram(&mut random);
        assert!(walk(&octets).is_some());
        check(&octets, &mut seen);
        if random.one_in(CUT_ONE_IN) {
            (0..octets.len()).for_each(|end| check(&octets[..end], &mut seen));
        }
        damage(&mut random, &mut octets);
        check(&octets, &mut seen);
    }
    assert!(seen.0.keys().copied().eq([0, 21, 25, 26, 27, 28, 31]), "{:?}", seen.0);
    assert!(seen.0.values().all(|times| *times > 100), "{:?}", seen.0);
}
