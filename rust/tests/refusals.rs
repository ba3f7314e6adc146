//! Every refusal that a call of the crate can return, and their order.

#![cfg(feature = "alloc")]

mod common;

use ccfb::{rewrite, ArrivalKind, Datagram, Mark, Packet, Refusal, Report, Request};
use ccfb::{SentPackets, Status, Time, MOST_PASSED_OVER};
use common::store_with;

/// A packet of one block of four numbers.
const PACKET: [u8; 28] = *b"\x8b\xcd\x00\x06\x00\x00\x00\xf1\x00\x00\x0a\x01\x00\x09\x00\x04\
    \x80\x00\x80\x00\x80\x00\x80\x00\x00\x05\x00\x00";

/// The packet with some of its octets replaced.
fn with(octets: &[(usize, u8)]) -> [u8; 28] {
    let mut packet = PACKET;
    for &(at, octet) in octets {
        packet[at] = octet;
    }
    packet
}

fn written(limit: usize, requests: &[Request], room: usize) -> Result<usize, Refusal> {
    let mut out = vec![0xee; room];
    let report = Report { own: 1, rts: 2, limit };
    let octets =
        store_with(5_000).write(report, requests, &mut out).map(|packets| packets.octets().len());
    assert!(octets.is_ok() || out.iter().all(|octet| *octet == 0xee));
    octets
}

#[test]
fn by_the_store() {
    let mut store = store_with(5_000);
    let mut arrive = |ssrc, number| store.arrive(ssrc, number, Mark::Ce, Time::Unknown);
    assert_eq!(arrive(8, 5_000), Err(Refusal::NoFreePlace));
    assert_eq!(arrive(7, 2_952), Err(Refusal::TooOld));
    assert_eq!(arrive(7, 2_953), Ok(ArrivalKind::Late));
    assert_eq!(arrive(7, 37_768), Err(Refusal::TooOld));
    assert_eq!(arrive(7, 37_767), Ok(ArrivalKind::Ahead { passed_over: MOST_PASSED_OVER }));
    assert_eq!(store.forget(8), Err(Refusal::NotHeld));
    assert_eq!(store.place(2), Err(Refusal::NotHeld));
    assert_eq!(store.forget(7), Ok(()));
    assert_eq!(store.place(0), Err(Refusal::NotHeld));
    assert_eq!(Mark::try_from(4), Err(Refusal::BadMark));
}

#[test]
fn by_the_sent_packets() {
    let mut sent = SentPackets::<1>::new();
    assert_eq!(sent.status(7, 5_000), Err(Refusal::NotHeld));
    assert_eq!(sent.register(7, 5_000), Ok(()));
    assert_eq!(sent.register(8, 5_000), Err(Refusal::NoFreePlace));
    assert_eq!(sent.status(8, 5_000), Err(Refusal::NotHeld));
    assert_eq!(sent.register(7, 2_952), Err(Refusal::TooOld));
    assert_eq!(sent.register(7, 37_768), Err(Refusal::TooOld));
    for number in [4_999, 5_001, 2_953, 2_952, 37_768] {
        assert_eq!(sent.status(7, number), Err(Refusal::NotRegistered));
    }
    assert_eq!(sent.register(7, 2_953), Ok(()));
    assert_eq!(sent.status(7, 2_953), Ok(Status::NotReported));
    assert_eq!(sent.register(7, 37_767), Ok(()));
    assert_eq!(sent.status(7, 5_000), Err(Refusal::NotRegistered));
}

#[test]
fn by_the_writer() {
    let of_7 = |begin, count| Request { ssrc: 7, begin, count };
    let unknown = Request { ssrc: 8, begin: 0, count: 0 };
    assert_eq!(written(23, &[unknown; 17], 0), Err(Refusal::BadLimit));
    assert_eq!(written(9_001, &[], 0), Err(Refusal::BadLimit));
    assert_eq!(written(24, &[unknown; 17], 0), Err(Refusal::TooManyRequests));
    assert_eq!(written(24, &[of_7(5_000, 1), unknown], 0), Err(Refusal::NotHeld));
    assert_eq!(written(24, &[of_7(5_000, 1), of_7(0, 1)], 0), Err(Refusal::StreamRepeated));
    for range in [(5_000, 2), (5_001, 1), (2_952, 1), (4_999, 0)] {
        assert_eq!(written(24, &[of_7(range.0, range.1)], 0), Err(Refusal::BadRange));
    }
    assert_eq!(written(24, &[of_7(5_000, 1)], 23), Err(Refusal::OutputTooShort));
    assert_eq!(written(24, &[of_7(5_000, 1)], 24), Ok(24));
}

#[test]
fn by_what_reads_a_packet() {
    let cases: [(&[u8], Refusal); 12] = [
        (&[], Refusal::PacketTooShort),
        (&PACKET[..11], Refusal::PacketTooShort),
        (&with(&[(0, 0x4b), (1, 0)]), Refusal::BadVersion),
        (&with(&[(0, 0x8a), (3, 0)]), Refusal::BadType),
        (&with(&[(1, 206)]), Refusal::BadType),
        (&with(&[(3, 7), (0, 0xab)]), Refusal::BadLength),
        (&with(&[(0, 0xab), (15, 5)]), Refusal::Padded),
        (&with(&[(15, 5)]), Refusal::RunsIntoRts),
        // Its metrics are then read as a second block.
        (&with(&[(15, 0)]), Refusal::TooManyReports),
        (&with(&[(14, 0x40), (15, 0)]), Refusal::RunsIntoRts),
        (&with(&[(14, 0x40), (15, 1)]), Refusal::TooManyReports),
        (&with(&[(15, 3)]), Refusal::FillerNotZero),
    ];
    for (octets, refusal) in cases {
        assert_eq!(Packet::read(octets), Err(refusal));
        assert_eq!(rewrite(octets, &mut []), Err(refusal));
        assert_eq!(SentPackets::<1>::new().take_in(octets), Err(refusal));
    }
    assert_eq!(rewrite(&PACKET, &mut [0; 27]), Err(Refusal::OutputTooShort));
}

#[test]
fn by_the_questions() {
    let packet = Packet::read(&PACKET).expect("a packet");
    assert_eq!(packet.block(1), Err(Refusal::NoBlock));
    assert_eq!(packet.metric(1, 0), Err(Refusal::NoBlock));
    assert_eq!(packet.metric(0, 4), Err(Refusal::NoNumber));
    assert_eq!(packet.block(0).and_then(|block| block.metric(4)), Err(Refusal::NoNumber));
}

#[test]
fn by_the_datagram() {
    const BYE: [u8; 4] = [0x80, 203, 0, 0];
    let cases: [&[u8]; 8] = [
        &BYE[..1],
        &BYE[..3],
        &[0x40, 203, 0, 0],
        &[0xc0, 203, 0, 0],
        &[0x80, 203, 0, 1],
        &[0x80, 203, 0xff, 0xff],
        &[0xa0, 203, 0, 0, 0x80, 203, 0, 0],
        &with(&[(3, 5)]),
    ];
    for octets in cases {
        assert_eq!(Datagram::read(octets), Err(Refusal::BadDatagram));
        assert_eq!(Datagram::read(&[&BYE, octets].concat()), Err(Refusal::BadDatagram));
        // The feedback in front is not handed out.
        assert_eq!(Datagram::read(&[&PACKET, octets].concat()), Err(Refusal::BadDatagram));
    }
}

#[test]
fn by_the_feedback_of_a_datagram() {
    let cases: [(&[u8], Refusal); 8] = [
        (&[], Refusal::NoPacket),
        (&with(&[(0, 0x8a)]), Refusal::NoPacket),
        (&with(&[(1, 206)]), Refusal::NoPacket),
        (&[0x8b, 205, 0, 0], Refusal::PacketTooShort),
        (&with(&[(0, 0xab), (15, 5)]), Refusal::Padded),
        (&with(&[(15, 5)]), Refusal::RunsIntoRts),
        (&with(&[(14, 0x40), (15, 1)]), Refusal::TooManyReports),
        (&with(&[(15, 3)]), Refusal::FillerNotZero),
    ];
    for (octets, refusal) in cases {
        let octets = [&PACKET, octets].concat();
        let datagram = Datagram::read(&octets).expect("a datagram");
        assert!(datagram.feedback_packet(0).is_ok());
        assert_eq!(datagram.feedback_packet(1), Err(refusal));
        assert_eq!(datagram.feedback_packet(2), Err(Refusal::NoPacket));
    }
}

#[test]
fn an_empty_block_needs_no_room() {
    let octets =
        *b"\x8b\xcd\x00\x04\x00\x00\x00\xf1\x00\x00\x0a\x01\x00\x05\x00\x00\x00\x05\x00\x00";
    let block = Packet::read(&octets).and_then(|packet| packet.block(0)).expect("a block");
    assert_eq!(block.decode_metrics(&mut [], &mut [], &mut []), Ok(0));
}

#[test]
fn by_the_decoding_of_a_block() {
    let block = Packet::read(&PACKET).and_then(|packet| packet.block(0)).expect("a block");
    for short in 0..3 {
        let rooms = [0, 1, 2].map(|slice| if slice == short { 3 } else { 5 });
        let (mut kinds, mut marks) = (vec![0xee; rooms[0]], vec![0xee; rooms[1]]);
        let mut offsets = vec![0xeeee; rooms[2]];
        let decoded = block.decode_metrics(&mut kinds, &mut marks, &mut offsets);
        assert_eq!(decoded, Err(Refusal::OutputTooShort));
        assert!(kinds.iter().chain(&marks).all(|entry| *entry == 0xee));
        assert!(offsets.iter().all(|offset| *offset == 0xeeee));
    }
}
