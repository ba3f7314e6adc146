//! Store calls.

use super::answer;
use crate::ffi::c_functions;
use crate::metric::Arrived;
use crate::store::{ArrivalKind, CELLS_OF_A_PLACE};

c_functions! { StoreCalls, "store":
    arrive = ccfb_arrive(
        *mut u64, usize, *mut u64, usize, u32, u16, u8, bool, u32, *mut CcfbArrival
    );
    forget = ccfb_forget(*mut u64, usize, *const u64, usize, u32);
    place = ccfb_place(*const u64, usize, *const u64, usize, usize, *mut u32, *mut u16);
    oldest = ccfb_oldest(*const u64, usize, *const u64, usize, usize, *mut u16);
}

/// The kinds of accepted arrival, as the call numbers them.
pub const FIRST: u16 = 0;
pub const AHEAD: u16 = 1;
pub const LATE: u16 = 2;
pub const COPY: u16 = 3;

/// The struct `ccfb_arrival`.
#[derive(Clone, Copy, Debug, Default, PartialEq, Eq)]
#[repr(C)]
pub struct CcfbArrival {
    pub kind: u16,
    pub passed_over: u16,
}

impl From<ArrivalKind> for CcfbArrival {
    fn from(kind: ArrivalKind) -> CcfbArrival {
        let (kind, passed_over) = match kind {
            ArrivalKind::First => (FIRST, 0),
            ArrivalKind::Ahead { passed_over } => (AHEAD, passed_over),
            ArrivalKind::Late => (LATE, 0),
            ArrivalKind::Copy => (COPY, 0),
        };
        CcfbArrival { kind, passed_over }
    }
}

/// The two arrays of a store.
#[derive(Clone, Debug, PartialEq, Eq)]
pub struct Words {
    pub places: Vec<u64>,
    pub cells: Vec<u64>,
}

impl Words {
    pub fn fresh(places: usize) -> Words {
        Words { places: vec![0; places], cells: vec![0; CELLS_OF_A_PLACE * places] }
    }
}

impl StoreCalls {
    pub fn arrive(
        &self,
        words: &mut Words,
        ssrc: u32,
        number: u16,
        arrived: Arrived,
        idle: u32,
    ) -> Result<CcfbArrival, u8> {
        let Words { places, cells } = words;
        let Arrived { mark, time } = arrived;
        let before = CcfbArrival { kind: 0xBEEF, passed_over: 0xDEAD };
        let mut arrival = before;
        // SAFETY: each pointer is passed with the length of its slice; the last is to a local.
        let refused = unsafe {
            (self.arrive)(
                places.as_mut_ptr(),
                places.len(),
                cells.as_mut_ptr(),
                cells.len(),
                ssrc,
                number,
                mark,
                time.is_some(),
                time.unwrap_or(idle),
                &mut arrival,
            )
        };
        answer(refused, arrival, before)
    }

    pub fn forget(&self, words: &mut Words, ssrc: u32) -> Result<(), u8> {
        let Words { places, cells } = words;
        // SAFETY: as above.
        let refused = unsafe {
            (self.forget)(places.as_mut_ptr(), places.len(), cells.as_ptr(), cells.len(), ssrc)
        };
        answer(refused, (), ())
    }

    pub fn place(&self, words: &Words, k: usize) -> Result<(u32, u16), u8> {
        let Words { places, cells } = words;
        let before = (0xDEAD_BEEF, 0xBEEF);
        let (mut ssrc, mut highest) = before;
        // SAFETY: as above, and the last two pointers are to locals of their type.
        let refused = unsafe {
            (self.place)(
                places.as_ptr(),
                places.len(),
                cells.as_ptr(),
                cells.len(),
                k,
                &mut ssrc,
                &mut highest,
            )
        };
        answer(refused, (ssrc, highest), before)
    }

    pub fn oldest(&self, words: &Words, k: usize) -> Result<u16, u8> {
        let Words { places, cells } = words;
        let before = 0xBEEF;
        let mut oldest = before;
        // SAFETY: as above.
        let refused = unsafe {
            (self.oldest)(
                places.as_ptr(),
                places.len(),
                cells.as_ptr(),
                cells.len(),
                k,
                &mut oldest,
            )
        };
        answer(refused, oldest, before)
    }
}
