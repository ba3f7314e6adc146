//! The packets of a compound datagram, and those that the writer wrote behind others.

use ccfb::{Datagram, Metric, Refusal};

/// A sender report on one stream, as a box on the way puts it in front.
const SR: [u8; 52] = *b"\x81\xc8\x00\x0c\x00\x00\x00\xf1\xeb\x0b\x00\x2a\x1a\x1c\x00\x00\
    \x00\x05\x7e\x40\x00\x00\x10\x00\x00\x4e\x20\x00\x5e\xed\x00\x01\x00\x00\x00\x02\x00\x00\xff\
    \x9a\x00\x00\x00\x12\x00\x29\x80\x00\x00\x00\x9a\x1c";

/// A source description: the CNAME box@example.
const SDES: [u8; 24] = *b"\x81\xca\x00\x05\x00\x00\x00\xf1\x01\x0bbox@example\x00\x00\x00";

/// Feedback on one number, which is missing.
const CCFB: [u8; 24] = *b"\x8b\xcd\x00\x05\x00\x00\x00\xf1\x5e\xed\x00\x01\xff\x9a\x00\x01\
    \x00\x00\x00\x00\x00\x2a\x1a\x1c";

/// A picture loss indication, feedback of another kind.
const PLI: [u8; 12] = *b"\x81\xce\x00\x02\x00\x00\x00\xf1\x5e\xed\x00\x01";

/// Type, FMT or count, and length of each packet.
fn headers(datagram: Datagram) -> Vec<(u8, u8, usize)> {
    let header = |p: ccfb::RtcpPacket| (p.packet_type(), p.format(), p.octets().len());
    datagram.packets().map(header).collect()
}

#[test]
fn feedback_behind_a_sender_report_and_a_source_description() -> Result<(), Refusal> {
    let octets = [&SR[..], &SDES, &CCFB].concat();
    let datagram = Datagram::read(&octets)?;
    assert_eq!(datagram.octets(), octets);
    assert_eq!(headers(datagram), [(200, 1, 52), (202, 1, 24), (205, 11, 24)]);
    assert_eq!(datagram.feedback_count(), 1);
    let packet = datagram.feedback_packet(0)?;
    assert_eq!(packet.octets(), CCFB);
    assert_eq!(packet.metric(0, 0), Ok((0xff9a, Metric::NotReceived)));
    assert_eq!(datagram.feedback().collect::<Vec<_>>(), [Ok(packet)]);
    Ok(())
}

#[test]
fn any_packet_may_be_the_first() -> Result<(), Refusal> {
    for (octets, at) in [([&CCFB[..], &PLI].concat(), 0), ([&PLI[..], &CCFB].concat(), 12)] {
        let datagram = Datagram::read(&octets)?;
        assert_eq!(datagram.packets().count(), 2);
        assert_eq!(datagram.feedback_count(), 1);
        assert_eq!(datagram.feedback_packet(0)?.octets(), &octets[at..at + CCFB.len()]);
    }
    Ok(())
}

#[test]
fn a_refused_packet_does_not_hide_the_next() -> Result<(), Refusal> {
    let mut filled = CCFB;
    filled[18] = 1;
    let octets = [filled, CCFB].concat();
    let feedback = Datagram::read(&octets)?.feedback();
    let answers: Vec<_> = feedback.map(|packet| packet.map(|packet| packet.octets())).collect();
    assert_eq!(answers, [Err(Refusal::FillerNotZero), Ok(&CCFB[..])]);
    Ok(())
}

#[test]
fn the_last_packet_may_be_padded() -> Result<(), Refusal> {
    let mut padded = PLI;
    padded[0] |= 0x20;
    let octets = [&SDES[..], &padded].concat();
    let packets = Datagram::read(&octets)?.packets();
    assert_eq!(packets.size_hint(), (1, Some(octets.len() / 4)));
    assert_eq!(packets.map(|packet| packet.is_padded()).collect::<Vec<_>>(), [false, true]);
    Ok(())
}

#[test]
fn no_octets_hold_no_packet() -> Result<(), Refusal> {
    let datagram = Datagram::try_from(&[][..])?;
    assert_eq!((datagram.packets().count(), datagram.feedback().len()), (0, 0));
    assert_eq!(datagram.feedback_packet(0), Err(Refusal::NoPacket));
    Ok(())
}

#[cfg(feature = "alloc")]
#[test]
fn what_the_writer_wrote_is_found_alone_and_behind_others() -> Result<(), Refusal> {
    use ccfb::{Mark, Report, Store, Stream, Time};

    let mut store = Store::<2>::new();
    for (ssrc, number) in [(7, 100), (9, 65_530), (7, 130), (9, 12)] {
        store.arrive(ssrc, number, Mark::Ect1, Time::At(1))?;
    }
    let requests: Vec<_> = store.streams().map(Stream::all).collect();
    for limit in 24..140 {
        let mut out = [0; 1_000];
        let written = store.write(Report { own: 0xf1, rts: 2, limit }, &requests, &mut out)?;
        for in_front in [&[][..], &SR, &[&SR[..], &SDES, &PLI].concat()] {
            let octets = [in_front, written.octets()].concat();
            let found = Datagram::read(&octets)?.feedback();
            assert_eq!(found.len(), written.len());
            for (packet, octets) in found.zip(written.clone()) {
                assert_eq!(packet?.octets(), octets);
            }
        }
    }
    Ok(())
}
