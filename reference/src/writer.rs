//! The writer: checks the requests, cuts, and reads each metric from the stream's window.

use crate::cutting::{filled, Block, Request};
use crate::metric::{encode, Arrived};
use crate::packet;
use crate::refusal::Refusal;
use crate::store::{wrapped, Store, Stream, WINDOW};

pub const MOST_REQUESTS: usize = 16;

/// The least and the most octets that a caller may allow a packet.
pub const LEAST_LIMIT: usize = 24;
pub const MOST_LIMIT: usize = 9_000;

/// What the packets of one report have in common: sender, RTS and size limit.
#[derive(Clone, Copy, Debug)]
pub struct Report {
    pub sender: u32,
    pub rts: u32,
    pub limit: usize,
}

impl Report {
    /// The limit in whole words, as packets have them.
    pub fn rounded_limit(&self) -> usize {
        self.limit / 4 * 4
    }
}

/// The octets of each packet that is written to an output of `room` octets.
pub fn write(
    store: &Store,
    report: Report,
    requests: &[Request],
    room: usize,
) -> Result<Vec<Vec<u8>>, Refusal> {
    if !(LEAST_LIMIT..=MOST_LIMIT).contains(&report.limit) {
        return Err(Refusal::BadLimit);
    }
    if requests.len() > MOST_REQUESTS {
        return Err(Refusal::TooManyRequests);
    }
    let mut windows = Vec::new();
    for (i, request) in requests.iter().enumerate() {
        windows.push(window(store, &requests[..i], request)?);
    }
    let packets: Vec<Vec<u8>> = filled(requests, report.rounded_limit())
        .iter()
        .map(|packet| octets(report, requests, &windows, packet))
        .collect();
    if packets.iter().map(Vec::len).sum::<usize>() > room {
        return Err(Refusal::OutputTooShort);
    }
    Ok(packets)
}

/// A stream's H and its window.
type Window = (i64, Vec<Option<Arrived>>);

/// The window of the request's stream, or refusal 5, 8 or 9.
fn window(store: &Store, earlier: &[Request], request: &Request) -> Result<Window, Refusal> {
    let stream = store.stream(request.ssrc).ok_or(Refusal::NotHeld)?;
    if earlier.iter().any(|other| other.ssrc == request.ssrc) {
        return Err(Refusal::StreamRepeated);
    }
    if !in_window(stream, request) {
        return Err(Refusal::BadRange);
    }
    Ok((stream.highest, stream.window()))
}

/// Whether the window has as many numbers from begin to H as are asked for.
fn in_window(stream: &Stream, request: &Request) -> bool {
    let numbers: Vec<u16> = WINDOW.map(|back| wrapped(stream.highest - back)).collect();
    match numbers.iter().position(|number| *number == request.begin) {
        None => false,
        Some(back) if request.count == 0 => back == 0,
        Some(back) => usize::from(request.count) <= back + 1,
    }
}

fn octets(report: Report, requests: &[Request], windows: &[Window], packet: &[Block]) -> Vec<u8> {
    let blocks = packet
        .iter()
        .map(|block| packet::Block {
            ssrc: requests[block.request].ssrc,
            begin: block.begin,
            metrics: metrics(report.rts, &windows[block.request], block),
        })
        .collect();
    packet::Packet { sender: report.sender, rts: report.rts, blocks }.octets()
}

fn metrics(rts: u32, (highest, window): &Window, block: &Block) -> Vec<u16> {
    let from_highest = usize::from(wrapped(highest - i64::from(block.begin)));
    let backs = (0..usize::from(block.count)).map(|i| from_highest - i);
    backs.map(|back| encode(window[back], rts).expect("marks up to 3")).collect()
}

#[cfg(test)]
mod tests {
    use super::*;

    const REPORT: Report = Report { sender: 0xF1, rts: 0x0005_0000, limit: 32 };

    /// Streams 1 and 2, each with H = 2.
    fn store() -> Store {
        let mut store = Store::fresh(2).unwrap();
        for ssrc in [1, 2] {
            let arrived = Arrived { mark: 2, time: Some(0x0004_8000) };
            store.arrive(ssrc, 2, arrived).unwrap();
        }
        store
    }

    fn request(ssrc: u32, begin: u16, count: u16) -> Request {
        Request { ssrc, begin, count }
    }

    fn refusal(requests: &[Request]) -> Option<Refusal> {
        write(&store(), REPORT, requests, usize::MAX).err()
    }

    #[test]
    fn ranges() {
        assert_eq!(refusal(&[request(1, 2, 1)]), None);
        assert_eq!(refusal(&[request(1, 2, 2)]), Some(Refusal::BadRange));
        assert_eq!(refusal(&[request(1, 2, 0)]), None);
        assert_eq!(refusal(&[request(1, 1, 0)]), Some(Refusal::BadRange));
        assert_eq!(refusal(&[request(1, 3, 0)]), Some(Refusal::BadRange));
        assert_eq!(refusal(&[request(1, 63_491, 2_048)]), None);
        assert_eq!(refusal(&[request(1, 63_491, 2_049)]), Some(Refusal::BadRange));
        assert_eq!(refusal(&[request(1, 63_490, 1)]), Some(Refusal::BadRange));
        assert_eq!(refusal(&[request(1, 2, 1), request(3, 2, 1)]), Some(Refusal::NotHeld));
        assert_eq!(refusal(&[request(1, 2, 1), request(1, 2, 2)]), Some(Refusal::StreamRepeated));
        assert_eq!(refusal(&[]), None);
    }

    #[test]
    fn five_and_three() {
        let requests = [request(1, 65_534, 5), request(2, 0, 3)];
        for (limit, sizes) in [(32, vec![32, 28]), (44, vec![44, 24]), (48, vec![48])] {
            let report = Report { limit, ..REPORT };
            let need: usize = sizes.iter().sum();
            let packets = write(&store(), report, &requests, need).unwrap();
            assert_eq!(packets.iter().map(Vec::len).collect::<Vec<usize>>(), sizes);
            let short = write(&store(), report, &requests, need - 1);
            assert_eq!(short, Err(Refusal::OutputTooShort));
        }
    }

    #[test]
    fn limits() {
        let bad = Some(Refusal::BadLimit);
        for (limit, answer) in [(23, bad), (24, None), (9_000, None), (9_001, bad)] {
            let written = write(&store(), Report { limit, ..REPORT }, &[], 0);
            assert_eq!(written.err(), answer, "{limit}");
        }
        assert_eq!(refusal(&[request(3, 0, 0); 17]), Some(Refusal::TooManyRequests));
    }

    #[test]
    fn metrics_are_read_from_the_window() {
        let packets = write(&store(), REPORT, &[request(2, 1, 2)], 24).unwrap();
        let read = packet::parse(&packets[0]).unwrap();
        assert_eq!((read.sender, read.rts), (0xF1, 0x0005_0000));
        assert_eq!(read.blocks[0].metrics, [0x0000, 0xC200]);
    }
}
