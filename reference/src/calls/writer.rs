//! The writer's call.

use super::answer;
use super::store::Words;
use crate::cutting::Request;
use crate::ffi::c_functions;
use crate::writer::Report;

c_functions! { WriterCalls, "writer":
    write = ccfb_write(
        *const u64, usize, *const u64, usize, u32, u32, usize, *const Request, usize, *mut u8, usize,
        *mut usize, *mut usize
    );
}

impl WriterCalls {
    /// Writes to `out`; returns how many packets and octets.
    pub fn write(
        &self,
        words: &Words,
        report: Report,
        requests: &[Request],
        out: &mut [u8],
    ) -> Result<(usize, usize), u8> {
        let before = (usize::MAX - 1, usize::MAX - 2);
        let (mut packets, mut octets) = before;
        // SAFETY: each pointer is passed with the length of its slice; the last two are to locals.
        let refused = unsafe {
            (self.write)(
                words.places.as_ptr(),
                words.places.len(),
                words.cells.as_ptr(),
                words.cells.len(),
                report.sender,
                report.rts,
                report.limit,
                requests.as_ptr(),
                requests.len(),
                out.as_mut_ptr(),
                out.len(),
                &mut packets,
                &mut octets,
            )
        };
        answer(refused, (packets, octets), before)
    }
}
