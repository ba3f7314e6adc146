//! Calls on a datagram.

use super::packet::{self, be16, FMT, FMT_MASK, PADDING_FLAG, TYPE, VERSION};
use crate::calls::datagram::DatagramCalls;
use crate::refusal::Refusal;
use std::slice;

pub const BASELINE: DatagramCalls = DatagramCalls { feedback_count, feedback, next_packet };

/// The octet of version, padding flag and FMT, the type, and two octets of length.
const HEADER_OCTETS: usize = 4;

const BAD_DATAGRAM: u8 = Refusal::BadDatagram.number();
const NO_PACKET: u8 = Refusal::NoPacket.number();

/// Where the packet that starts at `at` ends.
#[inline]
fn end_of(datagram: &[u8], at: usize) -> Option<usize> {
    let rest = &datagram[at..];
    if rest.len() < HEADER_OCTETS || rest[0] >> 6 != VERSION {
        return None;
    }
    let length = 4 * (usize::from(be16(rest, 2)) + 1);
    let fits = length == rest.len() || (length < rest.len() && rest[0] & PADDING_FLAG == 0);
    fits.then_some(at + length)
}

/// Walks over the datagram and calls `visit` with the start and the end of each CCFB packet.
#[inline]
fn walk(datagram: &[u8], mut visit: impl FnMut(usize, usize)) -> u8 {
    let mut at = 0;
    while at < datagram.len() {
        let Some(end) = end_of(datagram, at) else {
            return BAD_DATAGRAM;
        };
        if datagram[at + 1] == TYPE && datagram[at] & FMT_MASK == FMT {
            visit(at, end);
        }
        at = end;
    }
    0
}

/// Where CCFB packet `k` starts and ends, if the reader reads it.
#[inline]
fn find(datagram: &[u8], k: usize) -> Result<(usize, usize), u8> {
    let mut found = None;
    let mut passed = 0;
    let refused = walk(datagram, |at, end| {
        if passed == k {
            found = Some((at, end));
        }
        passed += 1;
    });
    if refused != 0 {
        return Err(refused);
    }
    let (at, end) = found.ok_or(NO_PACKET)?;
    match packet::refused(&datagram[at..end]) {
        0 => Ok((at, end)),
        refused => Err(refused),
    }
}

#[inline(never)]
unsafe extern "C" fn feedback_count(datagram: *const u8, len: usize, count: *mut usize) -> u8 {
    let mut found = 0;
    let refused = walk(slice::from_raw_parts(datagram, len), |_, _| found += 1);
    if refused == 0 {
        *count = found;
    }
    refused
}

#[inline(never)]
unsafe extern "C" fn feedback(
    datagram: *const u8,
    len: usize,
    k: usize,
    packet_at: *mut usize,
    packet_length: *mut usize,
) -> u8 {
    match find(slice::from_raw_parts(datagram, len), k) {
        Err(refusal) => {
            (*packet_at, *packet_length) = (0, 0);
            refusal
        }
        Ok((at, end)) => {
            *packet_at = at;
            *packet_length = end - at;
            0
        }
    }
}

#[inline(never)]
unsafe extern "C" fn next_packet(
    datagram: *const u8,
    len: usize,
    at: *mut usize,
    packet_type: *mut u8,
    format: *mut u8,
    packet_at: *mut usize,
    packet_length: *mut usize,
) -> u8 {
    let start = *at;
    if start >= len {
        return NO_PACKET;
    }
    let datagram = slice::from_raw_parts(datagram, len);
    let Some(end) = end_of(datagram, start) else {
        return BAD_DATAGRAM;
    };
    *at = end;
    *packet_type = datagram[start + 1];
    *format = datagram[start] & FMT_MASK;
    *packet_at = start;
    *packet_length = end - start;
    0
}
