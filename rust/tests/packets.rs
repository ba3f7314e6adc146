//! How the writer cuts requests into packets.

#![cfg(feature = "alloc")]

mod common;

use ccfb::{room, Packet, Refusal, Report, Request, Store};
use common::store_with;

/// The newest numbers of each stream, whether they arrived or not.
fn requests(store: &Store<2>, counts: [u16; 2]) -> Vec<Request> {
    let newest = |(stream, count): (ccfb::Stream, u16)| {
        let begin = stream.highest.wrapping_sub(count.saturating_sub(1));
        Request { ssrc: stream.ssrc, begin, count }
    };
    store.streams().zip(counts).map(newest).collect()
}

#[test]
fn sizes_for_ranges_of_five_and_three() -> Result<(), Refusal> {
    let cases: [(usize, &[usize]); 3] = [(32, &[32, 28]), (44, &[44, 24]), (48, &[48])];
    let store = store_with(3);
    let requests = requests(&store, [5, 3]);
    for (limit, sizes) in cases {
        let mut out = [0; 68];
        let packets = store.write(Report { own: 1, rts: 2, limit }, &requests, &mut out)?;
        assert_eq!(packets.len(), sizes.len());
        assert_eq!(packets.map(<[u8]>::len).collect::<Vec<_>>(), sizes);
    }
    Ok(())
}

#[test]
fn no_request_gives_no_packet() -> Result<(), Refusal> {
    let packets = store_with(3).write(Report { own: 1, rts: 2, limit: 24 }, &[], &mut [])?;
    assert_eq!(packets.count(), 0);
    Ok(())
}

#[test]
fn room_is_enough() -> Result<(), Refusal> {
    let store = store_with(3);
    for limit in 24..64 {
        for counts in (0..12).flat_map(|first| (0..12).map(move |second| [first, second])) {
            let requests = requests(&store, counts);
            let asked: u16 = counts.iter().sum();
            let mut out = vec![0; room(asked.into(), requests.len())];
            let packets = store.write(Report { own: 1, rts: 2, limit }, &requests, &mut out)?;
            let mut reported = 0;
            for octets in packets {
                reported += Packet::read(octets)?.blocks().map(|block| block.count()).sum::<u16>();
            }
            assert_eq!(reported, asked);
        }
    }
    Ok(())
}
