//! Random lists of requests, good and faulty.

use crate::cutting::Request;
use crate::rng::Rng;
use crate::store::{wrapped, Store, Stream, CELLS_OF_A_PLACE};
use crate::writer::MOST_REQUESTS;

/// The most numbers that a good request can ask for.
const MOST: u16 = CELLS_OF_A_PLACE as u16;

/// How long ranges are.
#[derive(Clone, Copy)]
pub enum Size {
    /// So few that every cutting can be tried.
    Tiny,
    Small,
    Any,
}

impl Size {
    fn count(self, rng: &mut Rng) -> u16 {
        match self {
            Size::Tiny => rng.below(4) as u16,
            Size::Small => rng.below(40) as u16,
            Size::Any => match rng.below(8) {
                0 => 0,
                1 => 1,
                2 => MOST,
                3 => MOST - 1,
                4 => rng.below(u64::from(MOST) + 1) as u16,
                _ => rng.below(64) as u16,
            },
        }
    }
}

/// A range in the stream's window.
fn good_request(rng: &mut Rng, stream: &Stream, size: Size) -> Request {
    let count = size.count(rng);
    let newest = match count {
        0 => 0,
        _ if rng.one_in(2) => 0,
        _ => rng.below(u64::from(MOST - count) + 1) as i64,
    };
    let back = newest + i64::from(count.max(1)) - 1;
    Request { ssrc: stream.ssrc, begin: wrapped(stream.highest - back), count }
}

/// Up to `most` requests on different streams of the store, all good.
pub fn good_requests(rng: &mut Rng, store: &Store, most: usize, size: Size) -> Vec<Request> {
    let mut streams: Vec<&Stream> = Vec::new();
    for stream in store.places().iter().flatten() {
        if streams.iter().all(|other| other.ssrc != stream.ssrc) {
            streams.insert(rng.below(streams.len() as u64 + 1) as usize, stream);
        }
    }
    let wanted = rng.below(most.min(streams.len()) as u64 + 1) as usize;
    streams[..wanted].iter().map(|stream| good_request(rng, stream, size)).collect()
}

/// Puts a fault into the list: a stream not held, one repeated, a bad range, or too many requests.
pub fn put_fault(rng: &mut Rng, requests: &mut Vec<Request>) {
    if requests.is_empty() {
        requests.push(Request { ssrc: rng.u32(), begin: 0, count: 0 });
        return;
    }
    let at = rng.below(requests.len() as u64) as usize;
    let request = requests[at];
    match rng.below(8) {
        0 => requests[at].ssrc = rng.u32(),
        1 => requests.insert(rng.below(requests.len() as u64 + 1) as usize, request),
        2 => requests[at].count = request.count.wrapping_add(rng.pick(&[1, 2, MOST])),
        3 => requests[at].begin = request.begin.wrapping_add(rng.pick(&[1, 65_535, MOST])),
        4 => requests[at].count = rng.pick(&[0, 1, MOST, MOST + 1, 32_768, 65_535]),
        5 => requests[at].begin = rng.u16(),
        6 => requests[at].begin = request.begin.wrapping_sub(rng.below(2_100) as u16),
        _ => requests.resize(MOST_REQUESTS + rng.below(4) as usize, request),
    }
}
