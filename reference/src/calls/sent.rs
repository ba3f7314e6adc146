//! Calls of a sender.

use super::metric::{MARK_BEFORE, NOT_RECEIVED, NO_TIME, OVER_RANGE, RECEIVED};
use super::store::Words;
use super::{answer, TOUCHED};
use crate::ffi::c_functions;
use crate::sent::Status;

c_functions! { SentCalls, "sent":
    register = ccfb_register(*mut u64, usize, *mut u64, usize, u32, u16);
    take_in = ccfb_take_in(*const u64, usize, *mut u64, usize, *const u8, usize);
    status = ccfb_status(
        *const u64, usize, *const u64, usize, u32, u16, *mut u8, *mut u8, *mut u32
    );
}

/// The kind of status that no metric has.
pub const NOT_REPORTED: u8 = 4;

/// What the time is before a call that writes it only for some kinds.
const TIME_BEFORE: u32 = 0xA5A5_A5A5;

impl SentCalls {
    pub fn register(&self, words: &mut Words, ssrc: u32, number: u16) -> Result<(), u8> {
        let Words { places, cells } = words;
        let (places, places_len) = (places.as_mut_ptr(), places.len());
        let (cells, cells_len) = (cells.as_mut_ptr(), cells.len());
        // SAFETY: each pointer is passed with the length of its slice.
        let refused =
            unsafe { (self.register)(places, places_len, cells, cells_len, ssrc, number) };
        answer(refused, (), ())
    }

    pub fn take_in(&self, words: &mut Words, packet: &[u8]) -> Result<(), u8> {
        let Words { places, cells } = words;
        let (places, places_len) = (places.as_ptr(), places.len());
        let (cells, cells_len) = (cells.as_mut_ptr(), cells.len());
        let (octets, len) = (packet.as_ptr(), packet.len());
        // SAFETY: as above.
        let refused = unsafe { (self.take_in)(places, places_len, cells, cells_len, octets, len) };
        answer(refused, (), ())
    }

    pub fn status(&self, words: &Words, ssrc: u32, number: u16) -> Result<Status, u8> {
        let Words { places, cells } = words;
        let (places, places_len) = (places.as_ptr(), places.len());
        let (cells, cells_len) = (cells.as_ptr(), cells.len());
        let before = (0x5A, MARK_BEFORE, TIME_BEFORE);
        let (mut kind, mut mark, mut time) = before;
        // SAFETY: as above, and the last three pointers are to locals of their type.
        let refused = unsafe {
            let (k, m, t) = (&mut kind, &mut mark, &mut time);
            (self.status)(places, places_len, cells, cells_len, ssrc, number, k, m, t)
        };
        let (kind, mark, time) = answer(refused, (kind, mark, time), before)?;
        status_of(kind, mark, time)
    }
}

/// The status of that kind with its values, if no other value was written.
fn status_of(kind: u8, mark: u8, time: u32) -> Result<Status, u8> {
    match (kind, mark, time) {
        (NOT_RECEIVED, MARK_BEFORE, TIME_BEFORE) => Ok(Status::Missing),
        (RECEIVED, _, _) => Ok(Status::Received { mark, time }),
        (OVER_RANGE, _, TIME_BEFORE) => Ok(Status::OverRange { mark }),
        (NO_TIME, _, TIME_BEFORE) => Ok(Status::NoTime { mark }),
        (NOT_REPORTED, MARK_BEFORE, TIME_BEFORE) => Ok(Status::NotReported),
        _ => Err(TOUCHED),
    }
}
