//! Metric calls.

use super::{answer, TOUCHED};
use crate::ffi::c_functions;
use crate::metric::Metric;

c_functions! { MetricCalls, "metric":
    encode = ccfb_encode_metric(u8, bool, u32, u32, *mut u16);
    decode = ccfb_decode_metric(u16, *mut u8, *mut u8, *mut u16) -> ();
}

/// The kinds of metric, as the calls number them.
pub const NOT_RECEIVED: u8 = 0;
pub const RECEIVED: u8 = 1;
pub const OVER_RANGE: u8 = 2;
pub const NO_TIME: u8 = 3;

/// What the kind is before a call that must write it: no kind.
const KIND_BEFORE: u8 = 0xA5;

/// What mark and offset are before a call that writes them only for some kinds.
pub const MARK_BEFORE: u8 = 0xA5;
pub const OFFSET_BEFORE: u16 = 0xA5A5;

impl MetricCalls {
    /// Where the time is unknown, `idle` is passed for it; its value must not matter.
    pub fn encode(&self, mark: u8, time: Option<u32>, idle: u32, rts: u32) -> Result<u16, u8> {
        let before = 0x5A5A;
        let mut metric = before;
        // SAFETY: the pointer is to a local of its type.
        let refused =
            unsafe { (self.encode)(mark, time.is_some(), time.unwrap_or(idle), rts, &mut metric) };
        answer(refused, metric, before)
    }

    pub fn decode(&self, metric: u16) -> Result<Metric, u8> {
        let (mut kind, mut mark, mut offset) = (KIND_BEFORE, MARK_BEFORE, OFFSET_BEFORE);
        // SAFETY: the pointers are to locals of their type.
        unsafe { (self.decode)(metric, &mut kind, &mut mark, &mut offset) };
        metric_of(kind, mark, offset)
    }
}

/// The metric of that kind with its values, if no other value was written.
pub fn metric_of(kind: u8, mark: u8, offset: u16) -> Result<Metric, u8> {
    match (kind, mark, offset) {
        (NOT_RECEIVED, MARK_BEFORE, OFFSET_BEFORE) => Ok(Metric::NotReceived),
        (RECEIVED, _, _) => Ok(Metric::Received { mark, offset }),
        (OVER_RANGE, _, OFFSET_BEFORE) => Ok(Metric::OverRange { mark }),
        (NO_TIME, _, OFFSET_BEFORE) => Ok(Metric::NoTime { mark }),
        (NOT_RECEIVED..=NO_TIME, _, _) => Err(TOUCHED),
        _ => Err(kind),
    }
}
