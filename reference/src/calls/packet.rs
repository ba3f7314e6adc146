//! Reader and rewriter calls.

use super::metric::{metric_of, MARK_BEFORE, OFFSET_BEFORE};
use super::{answer, TOUCHED};
use crate::ffi::c_functions;
use crate::metric::Metric;

c_functions! { PacketCalls, "packet":
    read = ccfb_read(*const u8, usize, *mut u32, *mut u32, *mut usize);
    block = ccfb_block(*const u8, usize, usize, *mut u32, *mut u16, *mut u16);
    block_metrics = ccfb_block_metrics(*const u8, usize, usize, *mut usize, *mut usize);
    metric = ccfb_metric(
        *const u8, usize, usize, usize, *mut u16, *mut u8, *mut u8, *mut u16
    );
    first_block = ccfb_first_block(*const u8, usize, *mut usize);
    next_block = ccfb_next_block(
        *const u8, usize, *mut usize, *mut u32, *mut u16, *mut u16, *mut usize
    );
    metric_at = ccfb_metric_at(*const u8, usize, usize, *mut u8, *mut u8, *mut u16);
    decode_metrics = ccfb_decode_metrics(
        *const u8, usize, *mut u8, usize, *mut u8, usize, *mut u16, usize
    );
    rewrite = ccfb_rewrite(*const u8, usize, *mut u8, usize, *mut usize);
}

/// The three arrays of `decode_metrics`.
#[derive(Clone, Debug, PartialEq)]
pub struct Arrays {
    pub kinds: Vec<u8>,
    pub marks: Vec<u8>,
    pub offsets: Vec<u16>,
}

// The calls below are safe: each pointer is passed with the length of its slice, or is to a local
// of its type.
impl PacketCalls {
    /// Sender, RTS and number of blocks.
    pub fn read(&self, packet: &[u8]) -> Result<(u32, u32, usize), u8> {
        let before = (0x5A5A_5A5A, 0xA5A5_A5A5, usize::MAX - 1);
        let (mut sender, mut rts, mut blocks) = before;
        let (octets, len) = (packet.as_ptr(), packet.len());
        let refused = unsafe { (self.read)(octets, len, &mut sender, &mut rts, &mut blocks) };
        answer(refused, (sender, rts, blocks), before)
    }

    /// SSRC, begin and count.
    pub fn block(&self, packet: &[u8], k: usize) -> Result<(u32, u16, u16), u8> {
        let before = (0x5A5A_5A5A, 0xA5A5, 0x5A5A);
        let (mut ssrc, mut begin, mut count) = before;
        let (octets, len) = (packet.as_ptr(), packet.len());
        let refused = unsafe { (self.block)(octets, len, k, &mut ssrc, &mut begin, &mut count) };
        answer(refused, (ssrc, begin, count), before)
    }

    /// The octet where the metrics start, and their length in octets; both 0 if refused.
    pub fn block_metrics(&self, packet: &[u8], k: usize) -> Result<(usize, usize), u8> {
        let (mut metrics_at, mut metrics_length) = (usize::MAX - 1, usize::MAX - 2);
        let (octets, len) = (packet.as_ptr(), packet.len());
        let refused =
            unsafe { (self.block_metrics)(octets, len, k, &mut metrics_at, &mut metrics_length) };
        answer(refused, (metrics_at, metrics_length), (0, 0))
    }

    /// The octet where the first block starts, for `next_block`.
    pub fn first_block(&self, packet: &[u8]) -> Result<usize, u8> {
        let before = usize::MAX - 1;
        let mut at = before;
        let refused = unsafe { (self.first_block)(packet.as_ptr(), packet.len(), &mut at) };
        answer(refused, at, before)
    }

    /// SSRC, begin, count and the octet where the metrics start; moves `at` to the next block.
    pub fn next_block(&self, packet: &[u8], at: &mut usize) -> Result<(u32, u16, u16, usize), u8> {
        let before = (0x5A5A_5A5A, 0xA5A5, 0x5A5A, usize::MAX - 1);
        let (mut ssrc, mut begin, mut count, mut metrics_at) = before;
        let at_before = *at;
        let (octets, len) = (packet.as_ptr(), packet.len());
        let refused = unsafe {
            let (ssrc, begin, count) = (&mut ssrc, &mut begin, &mut count);
            (self.next_block)(octets, len, at, ssrc, begin, count, &mut metrics_at)
        };
        if refused != 0 && *at != at_before {
            return Err(TOUCHED);
        }
        answer(refused, (ssrc, begin, count, metrics_at), before)
    }

    /// Metric `j` of a part that holds the metrics of a block.
    pub fn metric_at(&self, part: &[u8], j: usize) -> Result<Metric, u8> {
        let before = 0x5A;
        let mut kind = before;
        let (mut mark, mut offset) = (MARK_BEFORE, OFFSET_BEFORE);
        let (octets, len) = (part.as_ptr(), part.len());
        let refused =
            unsafe { (self.metric_at)(octets, len, j, &mut kind, &mut mark, &mut offset) };
        metric_of(answer(refused, kind, before)?, mark, offset)
    }

    /// Metric `j` of block `k`, with its number.
    pub fn metric(&self, packet: &[u8], k: usize, j: usize) -> Result<(u16, Metric), u8> {
        let before = (0x5A5A, 0x5A);
        let (mut number, mut kind) = before;
        let (mut mark, mut offset) = (MARK_BEFORE, OFFSET_BEFORE);
        let (octets, len) = (packet.as_ptr(), packet.len());
        let refused = unsafe {
            (self.metric)(octets, len, k, j, &mut number, &mut kind, &mut mark, &mut offset)
        };
        let (number, kind) = answer(refused, (number, kind), before)?;
        Ok((number, metric_of(kind, mark, offset)?))
    }

    /// All metrics of a part into the arrays.
    pub fn decode_metrics(&self, part: &[u8], arrays: &mut Arrays) -> Result<(), u8> {
        let Arrays { kinds, marks, offsets } = arrays;
        let refused = unsafe {
            (self.decode_metrics)(
                part.as_ptr(),
                part.len(),
                kinds.as_mut_ptr(),
                kinds.len(),
                marks.as_mut_ptr(),
                marks.len(),
                offsets.as_mut_ptr(),
                offsets.len(),
            )
        };
        answer(refused, (), ())
    }

    /// Writes to `out`; returns how many octets.
    pub fn rewrite(&self, packet: &[u8], out: &mut [u8]) -> Result<usize, u8> {
        let before = usize::MAX - 1;
        let mut written = before;
        let (octets, len) = (packet.as_ptr(), packet.len());
        let (output, room) = (out.as_mut_ptr(), out.len());
        let refused = unsafe { (self.rewrite)(octets, len, output, room, &mut written) };
        answer(refused, written, before)
    }
}
