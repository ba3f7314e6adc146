//! The writer's call.

use super::metric::encoded;
use super::packet::{BLOCK_HEADER_OCTETS, HEADER_OCTETS, RTS_OCTETS};
use super::store::{find, is_shaped, CELLS_OF_A_PLACE, FILLED, MARK_MASK, TIME_KNOWN, TIME_SHIFT};
use crate::calls::writer::WriterCalls;
use crate::cutting::Request;
use crate::refusal::Refusal;
use std::slice;

pub const BASELINE: WriterCalls = WriterCalls { write };

const LEAST_LIMIT: usize = 24;
const MOST_LIMIT: usize = 9_000;
const MOST_REQUESTS: usize = 16;

/// Version 2, no padding, FMT 11; type 205.
const FIRST_OCTETS: [u8; 2] = [0x8B, 0xCD];

/// What a packet has besides its blocks.
const EMPTY_PACKET_OCTETS: usize = HEADER_OCTETS + RTS_OCTETS;

/// The octets of a block of one or two numbers.
const SHORT_BLOCK_OCTETS: usize = BLOCK_HEADER_OCTETS + 4;

/// A place's cells.
type Ring = [u64; CELLS_OF_A_PLACE];

/// Where the next packet starts: a request, and how many of its numbers were reported.
#[derive(Clone, Copy)]
struct Position {
    request: usize,
    reported: u16,
}

impl Position {
    const START: Position = Position { request: 0, reported: 0 };

    /// Takes the blocks of one packet, each with its request, begin and count, and returns the
    /// octets that they leave free of `room`, a multiple of 4.
    #[inline]
    fn packet(
        &mut self,
        requests: &[Request],
        mut room: usize,
        mut block: impl FnMut(usize, u16, u16),
    ) -> usize {
        while let Some(request) = requests.get(self.request) {
            let left = request.count - self.reported;
            if room < if left == 0 { BLOCK_HEADER_OCTETS } else { SHORT_BLOCK_OCTETS } {
                break;
            }
            let count = left.min(((room - BLOCK_HEADER_OCTETS) / 2) as u16);
            block(self.request, request.begin.wrapping_add(self.reported), count);
            room -= BLOCK_HEADER_OCTETS + 2 * usize::from(count + count % 2);
            if count < left {
                self.reported += count;
                break;
            }
            *self = Position { request: self.request + 1, reported: 0 };
        }
        room
    }
}

/// The place of each request's stream.
fn check(places: &[u64], requests: &[Request], found: &mut [usize; MOST_REQUESTS]) -> u8 {
    for (i, request) in requests.iter().enumerate() {
        let Some(k) = find(places, request.ssrc) else {
            return Refusal::NotHeld.number();
        };
        if requests[..i].iter().any(|other| other.ssrc == request.ssrc) {
            return Refusal::StreamRepeated.number();
        }
        let back = (places[k] as u16).wrapping_sub(request.begin);
        let good = match request.count {
            0 => back == 0,
            count => usize::from(back) < CELLS_OF_A_PLACE && back >= count - 1,
        };
        if !good {
            return Refusal::BadRange.number();
        }
        found[i] = k;
    }
    0
}

/// How many packets and octets there will be.
fn need(requests: &[Request], limit: usize) -> (usize, usize) {
    let mut position = Position::START;
    let (mut packets, mut octets) = (0, 0);
    while position.request < requests.len() {
        octets += limit - position.packet(requests, limit - EMPTY_PACKET_OCTETS, |_, _, _| ());
        packets += 1;
    }
    (packets, octets)
}

#[inline]
fn put(out: &mut [u8], at: &mut usize, octets: &[u8]) {
    out[*at..*at + octets.len()].copy_from_slice(octets);
    *at += octets.len();
}

/// The metrics of the ring's cells, starting at that of `begin`.
fn put_metrics(out: &mut [u8], ring: &Ring, begin: u16, rts: u32) {
    let (out, _) = out.as_chunks_mut();
    let start = usize::from(begin) % CELLS_OF_A_PLACE;
    let (first, rest) = out.split_at_mut(out.len().min(CELLS_OF_A_PLACE - start));
    put_run(first, &ring[start..], rts);
    put_run(rest, ring, rts);
}

fn put_run(out: &mut [[u8; 2]], cells: &[u64], rts: u32) {
    for (metric, cell) in out.iter_mut().zip(cells) {
        let mark = (cell & MARK_MASK) as u8;
        let filled = encoded(mark, cell & TIME_KNOWN != 0, (cell >> TIME_SHIFT) as u32, rts);
        let value = if cell & FILLED == 0 { 0 } else { filled };
        *metric = value.to_be_bytes();
    }
}

#[inline(never)]
#[allow(clippy::too_many_arguments)]
unsafe extern "C" fn write(
    places: *const u64,
    places_len: usize,
    cells: *const u64,
    cells_len: usize,
    sender: u32,
    rts: u32,
    limit: usize,
    requests: *const Request,
    requests_len: usize,
    out: *mut u8,
    out_len: usize,
    packets: *mut usize,
    octets: *mut usize,
) -> u8 {
    if !is_shaped(places_len, cells_len) {
        return Refusal::BadStore.number();
    }
    if !(LEAST_LIMIT..=MOST_LIMIT).contains(&limit) {
        return Refusal::BadLimit.number();
    }
    if requests_len > MOST_REQUESTS {
        return Refusal::TooManyRequests.number();
    }
    let requests = slice::from_raw_parts(requests, requests_len);
    let mut found = [0; MOST_REQUESTS];
    let refused = check(slice::from_raw_parts(places, places_len), requests, &mut found);
    if refused != 0 {
        return refused;
    }
    let limit = limit / 4 * 4;
    let need = need(requests, limit);
    if out_len < need.1 {
        return Refusal::OutputTooShort.number();
    }
    let (rings, _) = slice::from_raw_parts(cells, cells_len).as_chunks();
    let ring = |request: usize| &rings[found[request]];
    put_packets(slice::from_raw_parts_mut(out, need.1), requests, limit, sender, rts, ring);
    (*packets, *octets) = need;
    0
}

fn put_packets<'a>(
    out: &mut [u8],
    requests: &[Request],
    limit: usize,
    sender: u32,
    rts: u32,
    ring: impl Fn(usize) -> &'a Ring,
) {
    let mut position = Position::START;
    let mut at = 0;
    while position.request < requests.len() {
        let start = at;
        let [first, second] = FIRST_OCTETS;
        put(out, &mut at, &[first, second, 0, 0]);
        put(out, &mut at, &sender.to_be_bytes());
        position.packet(requests, limit - EMPTY_PACKET_OCTETS, |request, begin, count| {
            put(out, &mut at, &requests[request].ssrc.to_be_bytes());
            put(out, &mut at, &begin.to_be_bytes());
            put(out, &mut at, &count.to_be_bytes());
            let end = at + 2 * usize::from(count);
            put_metrics(&mut out[at..end], ring(request), begin, rts);
            at = end;
            if count % 2 == 1 {
                put(out, &mut at, &[0, 0]);
            }
        });
        put(out, &mut at, &rts.to_be_bytes());
        let length = ((at - start) / 4 - 1) as u16;
        out[start + 2..start + 4].copy_from_slice(&length.to_be_bytes());
    }
}
