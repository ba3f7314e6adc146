//! Store calls.

use super::metric::CE;
use crate::calls::store::{CcfbArrival, StoreCalls, AHEAD, COPY, FIRST, LATE};
use crate::refusal::Refusal;
use std::slice;

pub const BASELINE: StoreCalls = StoreCalls { arrive, forget, place, oldest };

pub const MOST_PLACES: usize = 16;
pub const CELLS_OF_A_PLACE: usize = 2_048;

/// How far ahead of the highest number a number can be.
const FARTHEST_AHEAD: u16 = 32_767;

/// The word of a held place is HELD + 65536 * SSRC + highest number.
const HELD: u64 = 1 << 48;
const SSRC_SHIFT: u32 = 16;

/// The word of a filled cell is FILLED, TIME_KNOWN if the time is known, the mark in the two lowest
/// bits, and the time above these four bits.
pub const FILLED: u64 = 8;
pub const TIME_KNOWN: u64 = 4;
pub const MARK_MASK: u64 = 3;
pub const TIME_SHIFT: u32 = 4;

#[inline]
pub fn is_shaped(places_len: usize, cells_len: usize) -> bool {
    places_len.wrapping_sub(1) < MOST_PLACES && cells_len == CELLS_OF_A_PLACE * places_len
}

/// The first place that holds `ssrc`.
#[inline]
pub fn find(places: &[u64], ssrc: u32) -> Option<usize> {
    let key = place_word(ssrc, 0) >> SSRC_SHIFT;
    places.iter().position(|word| word >> SSRC_SHIFT == key)
}

#[inline]
pub fn is_held(word: u64) -> bool {
    word / HELD == 1
}

/// The SSRC and the highest number of a held place.
#[inline]
pub fn stream(word: u64) -> (u32, u16) {
    ((word >> SSRC_SHIFT) as u32, word as u16)
}

#[inline]
pub fn place_word(ssrc: u32, highest: u16) -> u64 {
    HELD | u64::from(ssrc) << SSRC_SHIFT | u64::from(highest)
}

#[inline]
pub fn filled_word(mark: u8, time_known: bool, time: u32) -> u64 {
    let known = if time_known { TIME_KNOWN } else { 0 };
    u64::from(time) << TIME_SHIFT | FILLED | known | u64::from(mark)
}

/// The cells of place `k`, a ring.
#[inline]
pub fn ring_of(cells: &mut [u64], k: usize) -> &mut [u64] {
    let start = CELLS_OF_A_PLACE * k;
    &mut cells[start..start + CELLS_OF_A_PLACE]
}

/// Empties the cells of the `count` numbers after `highest`.
fn empty_after(ring: &mut [u64], highest: u16, count: u16) {
    let count = usize::from(count);
    if count >= CELLS_OF_A_PLACE {
        ring.fill(0);
        return;
    }
    let start = (usize::from(highest) + 1) % CELLS_OF_A_PLACE;
    let end = start + count;
    ring[start..end.min(CELLS_OF_A_PLACE)].fill(0);
    if end > CELLS_OF_A_PLACE {
        ring[..end - CELLS_OF_A_PLACE].fill(0);
    }
}

#[inline(never)]
#[allow(clippy::too_many_arguments)]
unsafe extern "C" fn arrive(
    places: *mut u64,
    places_len: usize,
    cells: *mut u64,
    cells_len: usize,
    ssrc: u32,
    number: u16,
    mark: u8,
    time_known: bool,
    time: u32,
    arrival: *mut CcfbArrival,
) -> u8 {
    if !is_shaped(places_len, cells_len) {
        return Refusal::BadStore.number();
    }
    if mark > CE {
        return Refusal::BadMark.number();
    }
    let places = slice::from_raw_parts_mut(places, places_len);
    let cells = slice::from_raw_parts_mut(cells, cells_len);
    match record(places, cells, ssrc, number, mark, filled_word(mark, time_known, time)) {
        Ok(kind) => {
            *arrival = kind;
            0
        }
        Err(refused) => refused,
    }
}

/// Records an arrival, in a store of the right shape; `filled` is the word of its mark and time.
#[inline(always)]
pub fn record(
    places: &mut [u64],
    cells: &mut [u64],
    ssrc: u32,
    number: u16,
    mark: u8,
    filled: u64,
) -> Result<CcfbArrival, u8> {
    admit(places, cells, ssrc, number, filled, |cell| {
        if *cell & FILLED == 0 {
            *cell = filled;
            return LATE;
        }
        if mark == CE {
            *cell |= u64::from(CE);
        }
        COPY
    })
}

/// Admits a number of a stream: `first` becomes the word of one that is the first or ahead, and
/// `again` changes that of one in the window and gives its kind.
#[inline(always)]
pub fn admit(
    places: &mut [u64],
    cells: &mut [u64],
    ssrc: u32,
    number: u16,
    first: u64,
    again: impl FnOnce(&mut u64) -> u16,
) -> Result<CcfbArrival, u8> {
    let Some(k) = find(places, ssrc) else {
        return start(places, cells, ssrc, number, first);
    };
    let (place, ring) = (&mut places[k], ring_of(cells, k));
    let highest = *place as u16;
    // FARTHEST_AHEAD or more, if the number is not ahead.
    let passed_over = number.wrapping_sub(highest).wrapping_sub(1);
    let behind = usize::from(highest.wrapping_sub(number));
    let cell = usize::from(number) % CELLS_OF_A_PLACE;
    if passed_over < FARTHEST_AHEAD {
        if passed_over > 0 {
            empty_after(ring, highest, passed_over);
        }
        *place = place_word(ssrc, number);
        ring[cell] = first;
        Ok(CcfbArrival { kind: AHEAD, passed_over })
    } else if behind >= CELLS_OF_A_PLACE {
        Err(Refusal::TooOld.number())
    } else {
        Ok(CcfbArrival { kind: again(&mut ring[cell]), passed_over: 0 })
    }
}

fn start(
    places: &mut [u64],
    cells: &mut [u64],
    ssrc: u32,
    number: u16,
    first: u64,
) -> Result<CcfbArrival, u8> {
    let Some(k) = places.iter().position(|word| !is_held(*word)) else {
        return Err(Refusal::NoFreePlace.number());
    };
    let ring = ring_of(cells, k);
    ring.fill(0);
    ring[usize::from(number) % CELLS_OF_A_PLACE] = first;
    places[k] = place_word(ssrc, number);
    Ok(CcfbArrival { kind: FIRST, passed_over: 0 })
}

#[inline(never)]
unsafe extern "C" fn forget(
    places: *mut u64,
    places_len: usize,
    _cells: *const u64,
    cells_len: usize,
    ssrc: u32,
) -> u8 {
    if !is_shaped(places_len, cells_len) {
        return Refusal::BadStore.number();
    }
    let places = slice::from_raw_parts_mut(places, places_len);
    match find(places, ssrc) {
        None => Refusal::NotHeld.number(),
        Some(k) => {
            places[k] = 0;
            0
        }
    }
}

#[inline(never)]
unsafe extern "C" fn place(
    places: *const u64,
    places_len: usize,
    _cells: *const u64,
    cells_len: usize,
    k: usize,
    ssrc: *mut u32,
    highest: *mut u16,
) -> u8 {
    if !is_shaped(places_len, cells_len) {
        return Refusal::BadStore.number();
    }
    match slice::from_raw_parts(places, places_len).get(k) {
        Some(word) if is_held(*word) => {
            (*ssrc, *highest) = stream(*word);
            0
        }
        _ => Refusal::NotHeld.number(),
    }
}

/// The oldest number that arrived, of the ring whose window ends with `highest`.
#[inline]
fn oldest_in(ring: &[u64], highest: u16) -> u16 {
    let lowest = highest.wrapping_sub(CELLS_OF_A_PLACE as u16 - 1);
    let (newer, older) = ring.split_at(usize::from(lowest) % CELLS_OF_A_PLACE);
    let first = older.iter().chain(newer).position(|cell| cell & FILLED != 0);
    first.map_or(highest, |above| lowest.wrapping_add(above as u16))
}

#[inline(never)]
unsafe extern "C" fn oldest(
    places: *const u64,
    places_len: usize,
    cells: *const u64,
    cells_len: usize,
    k: usize,
    oldest: *mut u16,
) -> u8 {
    if !is_shaped(places_len, cells_len) {
        return Refusal::BadStore.number();
    }
    let cells = slice::from_raw_parts(cells, cells_len);
    match slice::from_raw_parts(places, places_len).get(k) {
        Some(word) if is_held(*word) => {
            let start = CELLS_OF_A_PLACE * k;
            *oldest = oldest_in(&cells[start..start + CELLS_OF_A_PLACE], stream(*word).1);
            0
        }
        _ => Refusal::NotHeld.number(),
    }
}
