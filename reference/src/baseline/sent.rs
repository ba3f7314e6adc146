//! Calls of a sender.

use super::metric::{fields, R};
use super::packet::{self, be16, be32, Found, BEGIN_AT, RTS_OCTETS};
use super::store::{admit, find, is_shaped, ring_of, stream, CELLS_OF_A_PLACE};
use crate::calls::metric as kinds;
use crate::calls::sent::{SentCalls, NOT_REPORTED as KIND_NOT_REPORTED};
use crate::calls::store::{COPY, LATE};
use crate::refusal::Refusal;
use std::slice;

pub const BASELINE: SentCalls = SentCalls { register, take_in, status };

/// What is known of a number is in the two lowest bits of its word; 2 is missing. If it was
/// received, the metric that says so and RTS of its packet are above them.
const KNOWN_MASK: u64 = 3;
const NOT_REGISTERED: u64 = 0;
const NOT_REPORTED: u64 = 1;
const RECEIVED: u64 = 3;
const METRIC_SHIFT: u32 = 16;
const RTS_SHIFT: u32 = 32;

const R_SHIFT: u32 = 15;

/// How many times an offset counts, as a shift.
const OFFSET_SHIFT: u32 = 6;

/// How far the highest number of a window is above the lowest.
const WINDOW_SPAN: u16 = CELLS_OF_A_PLACE as u16 - 1;

const NOT_SENT: u8 = Refusal::NotRegistered.number();

#[inline(never)]
unsafe extern "C" fn register(
    places: *mut u64,
    places_len: usize,
    cells: *mut u64,
    cells_len: usize,
    ssrc: u32,
    number: u16,
) -> u8 {
    if !is_shaped(places_len, cells_len) {
        return Refusal::BadStore.number();
    }
    let places = slice::from_raw_parts_mut(places, places_len);
    let cells = slice::from_raw_parts_mut(cells, cells_len);
    let admitted = admit(places, cells, ssrc, number, NOT_REPORTED, |cell| {
        if *cell & KNOWN_MASK != NOT_REGISTERED {
            return COPY;
        }
        *cell = NOT_REPORTED;
        LATE
    });
    admitted.err().unwrap_or(0)
}

#[inline(never)]
unsafe extern "C" fn take_in(
    places: *const u64,
    places_len: usize,
    cells: *mut u64,
    cells_len: usize,
    packet: *const u8,
    len: usize,
) -> u8 {
    if !is_shaped(places_len, cells_len) {
        return Refusal::BadStore.number();
    }
    let packet = slice::from_raw_parts(packet, len);
    let refused = packet::refused(packet);
    if refused != 0 {
        return refused;
    }
    let places = slice::from_raw_parts(places, places_len);
    let cells = slice::from_raw_parts_mut(cells, cells_len);
    let received = u64::from(be32(packet, len - RTS_OCTETS)) << RTS_SHIFT | RECEIVED;
    packet::walk(packet, |block| {
        if let Some(k) = find(places, be32(packet, block.at)) {
            take_block(ring_of(cells, k), stream(places[k]).1, packet, block, received);
        }
    })
}

/// Enters a block. Its numbers that are in the window lie together: a block and a window are not
/// long enough to meet at both ends.
#[inline]
fn take_block(ring: &mut [u64], highest: u16, packet: &[u8], block: Found, received: u64) {
    let begin = be16(packet, block.at + BEGIN_AT);
    let lowest = highest.wrapping_sub(WINDOW_SPAN);
    let above = begin.wrapping_sub(lowest);
    let (below, room) = match above {
        0..=WINDOW_SPAN => (0, CELLS_OF_A_PLACE - usize::from(above)),
        _ => (usize::from(lowest.wrapping_sub(begin)), CELLS_OF_A_PLACE),
    };
    if below >= block.count {
        return;
    }
    let count = room.min(block.count - below);
    let at = block.metrics_at() + 2 * below;
    let metrics = &packet[at..at + 2 * count];
    let start = (usize::from(begin) + below) % CELLS_OF_A_PLACE;
    let (before, from) = ring.split_at_mut(start);
    let (first, second) = metrics.split_at((2 * from.len()).min(metrics.len()));
    enter(from, first, received);
    enter(before, second, received);
}

/// Enters what each metric says into the cell of its number; without a branch.
#[inline]
fn enter(cells: &mut [u64], metrics: &[u8], received: u64) {
    for (cell, metric) in cells.iter_mut().zip(metrics.chunks_exact(2)) {
        *cell = reported(*cell, u16::from_be_bytes([metric[0], metric[1]]), received);
    }
}

#[inline]
fn reported(word: u64, metric: u16, received: u64) -> u64 {
    // Only NOT_REPORTED has the lower bit alone; one more is missing.
    let missing = word + (word & !(word >> 1) & 1);
    let is_registered = (word | word >> 1) & 1;
    let taken = (is_registered & u64::from(metric >> R_SHIFT)).wrapping_neg();
    let received = received | u64::from(metric) << METRIC_SHIFT;
    // One of the two by a mask: in this loop that is faster than `if`.
    missing ^ (missing ^ received) & taken
}

#[inline(never)]
#[allow(clippy::too_many_arguments)]
unsafe extern "C" fn status(
    places: *const u64,
    places_len: usize,
    cells: *const u64,
    cells_len: usize,
    ssrc: u32,
    number: u16,
    kind: *mut u8,
    mark: *mut u8,
    time: *mut u32,
) -> u8 {
    if !is_shaped(places_len, cells_len) {
        return Refusal::BadStore.number();
    }
    let places = slice::from_raw_parts(places, places_len);
    let cells = slice::from_raw_parts(cells, cells_len);
    let Some(k) = find(places, ssrc) else {
        return Refusal::NotHeld.number();
    };
    let behind = usize::from(stream(places[k]).1.wrapping_sub(number));
    if behind >= CELLS_OF_A_PLACE {
        return NOT_SENT;
    }
    let word = cells[CELLS_OF_A_PLACE * k + usize::from(number) % CELLS_OF_A_PLACE];
    let known = word & KNOWN_MASK;
    if known == NOT_REGISTERED {
        return NOT_SENT;
    }
    if known != RECEIVED {
        // By its bit: a test against each value would become a jump through a table.
        let is_reported = known & NOT_REPORTED == 0;
        *kind = if is_reported { kinds::NOT_RECEIVED } else { KIND_NOT_REPORTED };
        return 0;
    }
    let (received_kind, received_mark, offset) = fields((word >> METRIC_SHIFT) as u16 | R);
    *kind = received_kind;
    *mark = received_mark;
    if received_kind == kinds::RECEIVED {
        *time = ((word >> RTS_SHIFT) as u32).wrapping_sub(u32::from(offset) << OFFSET_SHIFT);
    }
    0
}
