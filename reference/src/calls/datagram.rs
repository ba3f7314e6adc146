//! Calls on a datagram.

use super::{answer, TOUCHED};
use crate::ffi::c_functions;

c_functions! { DatagramCalls, "datagram":
    feedback_count = ccfb_feedback_count(*const u8, usize, *mut usize);
    feedback = ccfb_feedback(*const u8, usize, usize, *mut usize, *mut usize);
    next_packet = ccfb_next_packet(
        *const u8, usize, *mut usize, *mut u8, *mut u8, *mut usize, *mut usize
    );
}

// The calls below are safe: each pointer is passed with the length of its slice, or is to a local
// of its type.
impl DatagramCalls {
    pub fn feedback_count(&self, datagram: &[u8]) -> Result<usize, u8> {
        let before = usize::MAX - 1;
        let mut count = before;
        let refused =
            unsafe { (self.feedback_count)(datagram.as_ptr(), datagram.len(), &mut count) };
        answer(refused, count, before)
    }

    /// The octet where CCFB packet `k` starts, and its length in octets; both 0 if refused.
    pub fn feedback(&self, datagram: &[u8], k: usize) -> Result<(usize, usize), u8> {
        let (mut packet_at, mut packet_length) = (usize::MAX - 1, usize::MAX - 2);
        let (octets, len) = (datagram.as_ptr(), datagram.len());
        let refused =
            unsafe { (self.feedback)(octets, len, k, &mut packet_at, &mut packet_length) };
        answer(refused, (packet_at, packet_length), (0, 0))
    }

    /// Type, format, the octet where the packet starts, and its length in octets; moves `at`
    /// behind it.
    pub fn next_packet(
        &self,
        datagram: &[u8],
        at: &mut usize,
    ) -> Result<(u8, u8, usize, usize), u8> {
        let before = (0x5A, 0xA5, usize::MAX - 1, usize::MAX - 2);
        let (mut packet_type, mut format, mut packet_at, mut packet_length) = before;
        let at_before = *at;
        let (octets, len) = (datagram.as_ptr(), datagram.len());
        let refused = unsafe {
            let (packet_type, format) = (&mut packet_type, &mut format);
            let (packet_at, packet_length) = (&mut packet_at, &mut packet_length);
            (self.next_packet)(octets, len, at, packet_type, format, packet_at, packet_length)
        };
        if refused != 0 && *at != at_before {
            return Err(TOUCHED);
        }
        answer(refused, (packet_type, format, packet_at, packet_length), before)
    }
}
