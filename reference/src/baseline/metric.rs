//! Metric calls.

use crate::calls::metric::{MetricCalls, NOT_RECEIVED, NO_TIME, OVER_RANGE, RECEIVED};
use crate::refusal::Refusal;

pub const BASELINE: MetricCalls = MetricCalls { encode, decode };

/// ECN-CE, the highest mark.
pub const CE: u8 = 3;

/// R, the highest bit of a metric; the mark follows in two bits, the offset in 13.
pub(super) const R: u16 = 0x8000;
const OFFSET_BITS: u32 = 13;
const OFFSET_MASK: u16 = 0x1FFF;
const MARK_MASK: u8 = 3;

/// The offsets that are none.
const OFFSET_OVER_RANGE: u16 = 0x1FFE;
const OFFSET_NO_TIME: u16 = 0x1FFF;

/// The longest age that has an offset, 8189/1024 s in 1/65536 s.
const LONGEST_AGE: u32 = 524_096;

/// The metric of a filled cell.
#[inline]
pub fn encoded(mark: u8, time_known: bool, time: u32, rts: u32) -> u16 {
    let age = rts.wrapping_sub(time);
    let near = if age > LONGEST_AGE { OFFSET_OVER_RANGE } else { (age >> 6) as u16 };
    let offset = if !time_known | (age >> 31 == 1) { OFFSET_NO_TIME } else { near };
    R | (u16::from(mark) << OFFSET_BITS) | offset
}

#[inline(never)]
unsafe extern "C" fn encode(
    mark: u8,
    time_known: bool,
    time: u32,
    rts: u32,
    metric: *mut u16,
) -> u8 {
    if mark > CE {
        return Refusal::BadMark.number();
    }
    *metric = encoded(mark, time_known, time, rts);
    0
}

/// The kind of a metric; writes mark and offset where the kind has them.
#[inline]
pub(super) unsafe fn decoded(metric: u16, mark: *mut u8, offset: *mut u16) -> u8 {
    if metric < R {
        return NOT_RECEIVED;
    }
    *mark = (metric >> OFFSET_BITS) as u8 & MARK_MASK;
    match metric & OFFSET_MASK {
        OFFSET_NO_TIME => NO_TIME,
        OFFSET_OVER_RANGE => OVER_RANGE,
        value => {
            *offset = value;
            RECEIVED
        }
    }
}

/// The kind of a metric, its mark and its offset, 0 where the kind has none; without a branch.
#[inline]
pub(super) fn fields(metric: u16) -> (u8, u8, u16) {
    let received = if metric < R { 0 } else { metric };
    let value = received & OFFSET_MASK;
    let codes = u8::from(value >= OFFSET_OVER_RANGE) + u8::from(value == OFFSET_NO_TIME);
    let offset = if value < OFFSET_OVER_RANGE { value } else { 0 };
    (u8::from(metric >= R) + codes, (received >> OFFSET_BITS) as u8 & MARK_MASK, offset)
}

#[inline(never)]
unsafe extern "C" fn decode(metric: u16, kind: *mut u8, mark: *mut u8, offset: *mut u16) {
    *kind = decoded(metric, mark, offset);
}
