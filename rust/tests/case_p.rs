//! Case P: two arrivals, their feedback, and the feedback read.

#![cfg(feature = "alloc")]

use ccfb::{kind, rewrite, Mark, Metric, Packet, Refusal, Report, Request, Store, Time};

const PACKET: [u8; 28] = *b"\x8b\xcd\x00\x06\x00\x00\x00\xf1\x00\x00\x0a\x01\xff\xfd\x00\x04\
    \x00\x00\xc2\x00\x00\x00\xe0\x00\x00\x05\x00\x00";

#[test]
fn written() -> Result<(), Refusal> {
    let mut store = Store::<4>::new();
    store.arrive(0x0a01, 0xfffe, Mark::Ect0, Time::At(0x0004_8000))?;
    store.arrive(0x0a01, 0x0000, Mark::Ce, Time::At(0x0005_0000))?;
    // The newest four, though the first did not arrive: the case asks for them.
    let request = Request { ssrc: 0x0a01, begin: 0xfffd, count: 4 };
    let report = Report { own: 0xf1, rts: 0x0005_0000, limit: 1_200 };
    let mut out = [0xee; 29];
    let packets = store.write(report, &[request], &mut out)?;
    assert_eq!(packets.collect::<Vec<_>>(), [PACKET]);
    assert_eq!(out[28], 0xee);
    Ok(())
}

#[test]
fn read() -> Result<(), Refusal> {
    let packet = Packet::read(&PACKET)?;
    assert_eq!((packet.sender(), packet.rts(), packet.blocks().len()), (0xf1, 0x0005_0000, 1));
    let block = packet.block(0)?;
    assert_eq!(packet.blocks().collect::<Vec<_>>(), [block]);
    assert_eq!((block.ssrc(), block.begin(), block.count()), (0x0a01, 65533, 4));
    assert_eq!(block.part(), &PACKET[16..24]);
    let metrics = [
        (65533, Metric::NotReceived),
        (65534, Metric::Received { mark: Mark::Ect0, offset: 512 }),
        (65535, Metric::NotReceived),
        (0, Metric::Received { mark: Mark::Ce, offset: 0 }),
    ];
    assert_eq!(block.metrics().collect::<Vec<_>>(), metrics);
    for (j, (number, metric)) in metrics.into_iter().enumerate() {
        assert_eq!(packet.metric(0, j), Ok((number, metric)));
        assert_eq!(block.metric(j), Ok(metric));
    }
    Ok(())
}

#[test]
fn decoded() -> Result<(), Refusal> {
    let packet = Packet::read(&PACKET)?;
    let (mut kinds, mut marks, mut offsets) = ([9; 5], [9; 5], [0x0909; 5]);
    let entries = packet.block(0)?.decode_metrics(&mut kinds, &mut marks, &mut offsets)?;
    assert_eq!(entries, 4);
    assert_eq!(kinds, [kind::NOT_RECEIVED, kind::RECEIVED, kind::NOT_RECEIVED, kind::RECEIVED, 9]);
    assert_eq!(marks, [0, 2, 0, 3, 9]);
    assert_eq!(offsets, [0, 512, 0, 0, 0x0909]);
    Ok(())
}

#[test]
fn rewritten() {
    let mut marked = PACKET;
    marked[16] = 0x7f;
    let mut out = [0xee; 29];
    assert_eq!(rewrite(&marked, &mut out), Ok(28));
    assert_eq!(out[..28], PACKET);
    assert_eq!(out[28], 0xee);
}
