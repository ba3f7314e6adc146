//! Reader and rewriter calls.

use super::metric::{decoded, fields};
use crate::calls::packet::PacketCalls;
use crate::refusal::Refusal;
use std::slice;

pub const BASELINE: PacketCalls = PacketCalls {
    read,
    block,
    block_metrics,
    metric,
    first_block,
    next_block,
    metric_at,
    decode_metrics,
    rewrite,
};

/// The first octet has the version in two bits, the padding flag in one and FMT in five; the
/// second is the type.
pub(super) const VERSION: u8 = 2;
pub(super) const PADDING_FLAG: u8 = 0x20;
pub(super) const FMT_MASK: u8 = 0x1F;
pub(super) const FMT: u8 = 11;
pub(super) const TYPE: u8 = 205;

/// Where the sender is, and the length of a header that ends with it.
const SENDER_AT: usize = 4;
pub const HEADER_OCTETS: usize = 8;

/// Where in a block its fields are, and the length of a block's header.
pub(super) const BEGIN_AT: usize = 4;
const COUNT_AT: usize = 6;
pub const BLOCK_HEADER_OCTETS: usize = 8;

pub const RTS_OCTETS: usize = 4;

const MOST_REPORTS: usize = 16_384;

const NO_BLOCK: u8 = Refusal::NoBlock.number();

/// A block found by the walk.
#[derive(Clone, Copy)]
pub(super) struct Found {
    /// Where its header starts.
    pub at: usize,
    pub count: usize,
}

impl Found {
    #[inline]
    pub fn metrics_at(&self) -> usize {
        self.at + BLOCK_HEADER_OCTETS
    }
}

#[inline]
pub(super) fn be16(octets: &[u8], at: usize) -> u16 {
    u16::from_be_bytes([octets[at], octets[at + 1]])
}

#[inline]
pub(super) fn be32(octets: &[u8], at: usize) -> u32 {
    u32::from_be_bytes([octets[at], octets[at + 1], octets[at + 2], octets[at + 3]])
}

#[inline]
fn header(packet: &[u8]) -> u8 {
    if packet.len() < HEADER_OCTETS + RTS_OCTETS {
        Refusal::PacketTooShort.number()
    } else if packet[0] >> 6 != VERSION {
        Refusal::BadVersion.number()
    } else if packet[1] != TYPE || packet[0] & FMT_MASK != FMT {
        Refusal::BadType.number()
    } else if packet.len() != 4 * (usize::from(be16(packet, 2)) + 1) {
        Refusal::BadLength.number()
    } else if packet[0] & PADDING_FLAG != 0 {
        Refusal::Padded.number()
    } else {
        0
    }
}

/// The block whose header starts at `at`, and where the next one starts; `end` is where RTS does.
#[inline]
fn block_at(packet: &[u8], end: usize, at: usize) -> Result<(Found, usize), u8> {
    if at >= end {
        return Err(NO_BLOCK);
    }
    if end - at < BLOCK_HEADER_OCTETS {
        return Err(Refusal::RunsIntoRts.number());
    }
    let count = usize::from(be16(packet, at + COUNT_AT));
    if count > MOST_REPORTS {
        return Err(Refusal::TooManyReports.number());
    }
    let next = at + BLOCK_HEADER_OCTETS + 2 * (count + count % 2);
    if next > end {
        return Err(Refusal::RunsIntoRts.number());
    }
    if count % 2 == 1 && be16(packet, next - 2) != 0 {
        return Err(Refusal::FillerNotZero.number());
    }
    Ok((Found { at, count }, next))
}

/// Walks over all blocks and calls `visit` with each.
#[inline]
pub(super) fn walk(packet: &[u8], mut visit: impl FnMut(Found)) -> u8 {
    let refused = header(packet);
    if refused != 0 {
        return refused;
    }
    let mut at = HEADER_OCTETS;
    loop {
        match block_at(packet, packet.len() - RTS_OCTETS, at) {
            Ok((found, next)) => {
                visit(found);
                at = next;
            }
            Err(NO_BLOCK) => return 0,
            Err(refusal) => return refusal,
        }
    }
}

/// The reader's refusal of a packet, or 0.
#[inline]
pub(super) fn refused(packet: &[u8]) -> u8 {
    walk(packet, |_| ())
}

/// Block `k`.
#[inline]
fn find(packet: &[u8], k: usize) -> Result<Found, u8> {
    let mut found = None;
    let mut passed = 0;
    let refused = walk(packet, |block| {
        if passed == k {
            found = Some(block);
        }
        passed += 1;
    });
    match (refused, found) {
        (0, Some(block)) => Ok(block),
        (0, None) => Err(NO_BLOCK),
        _ => Err(refused),
    }
}

#[inline(never)]
unsafe extern "C" fn read(
    packet: *const u8,
    len: usize,
    sender: *mut u32,
    rts: *mut u32,
    blocks: *mut usize,
) -> u8 {
    let packet = slice::from_raw_parts(packet, len);
    let mut count = 0;
    let refused = walk(packet, |_| count += 1);
    if refused == 0 {
        *sender = be32(packet, SENDER_AT);
        *rts = be32(packet, len - RTS_OCTETS);
        *blocks = count;
    }
    refused
}

#[inline(never)]
unsafe extern "C" fn block(
    packet: *const u8,
    len: usize,
    k: usize,
    ssrc: *mut u32,
    begin: *mut u16,
    count: *mut u16,
) -> u8 {
    let packet = slice::from_raw_parts(packet, len);
    match find(packet, k) {
        Err(refusal) => refusal,
        Ok(found) => {
            *ssrc = be32(packet, found.at);
            *begin = be16(packet, found.at + BEGIN_AT);
            *count = found.count as u16;
            0
        }
    }
}

#[inline(never)]
unsafe extern "C" fn block_metrics(
    packet: *const u8,
    len: usize,
    k: usize,
    metrics_at: *mut usize,
    metrics_length: *mut usize,
) -> u8 {
    match find(slice::from_raw_parts(packet, len), k) {
        Err(refusal) => {
            (*metrics_at, *metrics_length) = (0, 0);
            refusal
        }
        Ok(found) => {
            *metrics_at = found.metrics_at();
            *metrics_length = 2 * found.count;
            0
        }
    }
}

#[inline(never)]
#[allow(clippy::too_many_arguments)]
unsafe extern "C" fn metric(
    packet: *const u8,
    len: usize,
    k: usize,
    j: usize,
    number: *mut u16,
    kind: *mut u8,
    mark: *mut u8,
    offset: *mut u16,
) -> u8 {
    let packet = slice::from_raw_parts(packet, len);
    match find(packet, k) {
        Err(refusal) => refusal,
        Ok(found) if j >= found.count => Refusal::NoNumber.number(),
        Ok(found) => {
            *number = be16(packet, found.at + BEGIN_AT).wrapping_add(j as u16);
            *kind = decoded(be16(packet, found.metrics_at() + 2 * j), mark, offset);
            0
        }
    }
}

#[inline(never)]
unsafe extern "C" fn first_block(packet: *const u8, len: usize, at: *mut usize) -> u8 {
    let refused = header(slice::from_raw_parts(packet, len));
    if refused == 0 {
        *at = HEADER_OCTETS;
    }
    refused
}

#[inline(never)]
unsafe extern "C" fn next_block(
    packet: *const u8,
    len: usize,
    at: *mut usize,
    ssrc: *mut u32,
    begin: *mut u16,
    count: *mut u16,
    metrics_at: *mut usize,
) -> u8 {
    let packet = slice::from_raw_parts(packet, len);
    match block_at(packet, len.saturating_sub(RTS_OCTETS), *at) {
        Err(refusal) => refusal,
        Ok((found, next)) => {
            *at = next;
            *ssrc = be32(packet, found.at);
            *begin = be16(packet, found.at + BEGIN_AT);
            *count = found.count as u16;
            *metrics_at = found.metrics_at();
            0
        }
    }
}

#[inline(never)]
unsafe extern "C" fn metric_at(
    part: *const u8,
    len: usize,
    j: usize,
    kind: *mut u8,
    mark: *mut u8,
    offset: *mut u16,
) -> u8 {
    if j >= len / 2 {
        return Refusal::NoNumber.number();
    }
    let part = slice::from_raw_parts(part, len);
    *kind = decoded(be16(part, 2 * j), mark, offset);
    0
}

#[inline(never)]
#[allow(clippy::too_many_arguments)]
unsafe extern "C" fn decode_metrics(
    part: *const u8,
    len: usize,
    kinds: *mut u8,
    kinds_len: usize,
    marks: *mut u8,
    marks_len: usize,
    offsets: *mut u16,
    offsets_len: usize,
) -> u8 {
    let n = len / 2;
    if kinds_len < n || marks_len < n || offsets_len < n {
        return Refusal::OutputTooShort.number();
    }
    let metrics = slice::from_raw_parts(part, 2 * n).chunks_exact(2);
    let kinds = slice::from_raw_parts_mut(kinds, n);
    let marks = slice::from_raw_parts_mut(marks, n);
    let offsets = slice::from_raw_parts_mut(offsets, n);
    for (((metric, kind), mark), offset) in metrics.zip(kinds).zip(marks).zip(offsets) {
        (*kind, *mark, *offset) = fields(u16::from_be_bytes([metric[0], metric[1]]));
    }
    0
}

#[inline(never)]
unsafe extern "C" fn rewrite(
    packet: *const u8,
    len: usize,
    out: *mut u8,
    out_len: usize,
    written: *mut usize,
) -> u8 {
    let packet = slice::from_raw_parts(packet, len);
    let refused = refused(packet);
    if refused != 0 {
        return refused;
    }
    if out_len < len {
        return Refusal::OutputTooShort.number();
    }
    let out = slice::from_raw_parts_mut(out, len);
    out.copy_from_slice(packet);
    walk(packet, |found| {
        let start = found.metrics_at();
        let metrics = &mut out[start..start + 2 * found.count];
        for metric in metrics.chunks_exact_mut(2) {
            // R, the highest bit, is not set.
            if metric[0] < 0x80 {
                metric.fill(0);
            }
        }
    });
    *written = len;
    0
}
