//! The store as the accepted arrivals of each stream, each under its full number: the sequence
//! number if numbers never wrapped around. Every answer is read from them.

use crate::metric::{Arrived, CE};
use crate::refusal::Refusal;
use std::collections::BTreeMap;
use std::ops::Range;

pub const MOST_PLACES: usize = 16;

/// A place has a cell for each number of its stream's window.
pub const CELLS_OF_A_PLACE: usize = 2_048;

/// How far behind H the numbers of a window are.
pub const WINDOW: Range<i64> = 0..CELLS_OF_A_PLACE as i64;

/// How far ahead of H a number can be; a number farther ahead counts as behind.
const FARTHEST_AHEAD: i64 = 32_767;

/// How many sequence numbers there are before they wrap around.
const NUMBER_ROUND: i64 = 65_536;

/// A stream with its history.
#[derive(Clone, Debug)]
pub struct Stream {
    pub ssrc: u32,
    /// The full number of H.
    pub highest: i64,
    /// The accepted arrivals of each full number, in the order of calls.
    pub accepted: BTreeMap<i64, Vec<Arrived>>,
}

/// What an accepted arrival was.
#[derive(Clone, Copy, Debug, PartialEq, Eq)]
pub enum ArrivalKind {
    /// The first of its stream.
    First,
    /// Ahead of the highest number so far, with so many numbers between the two.
    Ahead { passed_over: u16 },
    /// Not ahead, and not received before.
    Late,
    /// Received before.
    Copy,
}

#[derive(Clone, Debug)]
pub struct Store {
    places: Vec<Option<Stream>>,
}

/// The sequence number of a full number.
pub fn wrapped(full: i64) -> u16 {
    full.rem_euclid(NUMBER_ROUND) as u16
}

/// The full number that `number` stands for if `highest` is that of H, found among all that wrap to
/// it; `None` if too old.
pub fn full_of(highest: i64, number: u16) -> Option<i64> {
    let round = highest.div_euclid(NUMBER_ROUND) * NUMBER_ROUND;
    let candidates =
        [-NUMBER_ROUND, 0, NUMBER_ROUND].map(|rounds| round + rounds + i64::from(number));
    let is_ahead = |full: &&i64| (1..=FARTHEST_AHEAD).contains(&(*full - highest));
    let is_within = |full: &&i64| WINDOW.contains(&(highest - *full));
    candidates.iter().find(is_ahead).or(candidates.iter().find(is_within)).copied()
}

impl Stream {
    /// The lowest full number of the window that an accepted arrival had; that of H if none had
    /// one.
    pub fn oldest(&self) -> i64 {
        let of_window = self.accepted.range(self.highest + 1 - WINDOW.end..);
        of_window.map(|(full, _)| *full).next().unwrap_or(self.highest)
    }

    /// The cells of the window: that of H first, then that of H-1 and so on.
    pub fn window(&self) -> Vec<Option<Arrived>> {
        let copies = |back| self.accepted.get(&(self.highest - back));
        WINDOW.map(|back| copies(back).and_then(|copies| cell(copies))).collect()
    }

    /// Enters an arrival of that full number, and says what it was by what came before it.
    fn enter(&mut self, full: i64, arrived: Arrived) -> ArrivalKind {
        let kind = if full > self.highest {
            let between = self.highest + 1..full;
            ArrivalKind::Ahead { passed_over: between.count() as u16 }
        } else if self.accepted.contains_key(&full) {
            ArrivalKind::Copy
        } else {
            ArrivalKind::Late
        };
        self.highest = self.highest.max(full);
        self.accepted.entry(full).or_default().push(arrived);
        kind
    }
}

/// What the accepted arrivals of one full number, in the order of calls, leave in its cell.
fn cell(copies: &[Arrived]) -> Option<Arrived> {
    let first = copies.first()?;
    let congested = copies.iter().any(|copy| copy.mark == CE);
    Some(Arrived { mark: if congested { CE } else { first.mark }, time: first.time })
}

impl Store {
    pub fn new(places: Vec<Option<Stream>>) -> Result<Store, Refusal> {
        if places.is_empty() || places.len() > MOST_PLACES {
            return Err(Refusal::BadStore);
        }
        Ok(Store { places })
    }

    pub fn fresh(places: usize) -> Result<Store, Refusal> {
        Store::new(vec![None; places])
    }

    pub fn places(&self) -> &[Option<Stream>] {
        &self.places
    }

    /// The stream in the first place that holds `ssrc`.
    pub fn stream(&self, ssrc: u32) -> Option<&Stream> {
        self.places.iter().flatten().find(|stream| stream.ssrc == ssrc)
    }

    pub fn arrive(
        &mut self,
        ssrc: u32,
        number: u16,
        arrived: Arrived,
    ) -> Result<ArrivalKind, Refusal> {
        if arrived.mark > CE {
            return Err(Refusal::BadMark);
        }
        let held = self.places.iter_mut().flatten().find(|stream| stream.ssrc == ssrc);
        let Some(stream) = held else {
            return self.start(ssrc, number, arrived);
        };
        let full = full_of(stream.highest, number).ok_or(Refusal::TooOld)?;
        Ok(stream.enter(full, arrived))
    }

    fn start(&mut self, ssrc: u32, number: u16, arrived: Arrived) -> Result<ArrivalKind, Refusal> {
        let free = self.places.iter_mut().find(|place| place.is_none());
        let place = free.ok_or(Refusal::NoFreePlace)?;
        let highest = i64::from(number);
        *place = Some(Stream { ssrc, highest, accepted: [(highest, vec![arrived])].into() });
        Ok(ArrivalKind::First)
    }

    pub fn forget(&mut self, ssrc: u32) -> Result<(), Refusal> {
        let holds = |place: &Option<Stream>| matches!(place, Some(held) if held.ssrc == ssrc);
        let place = self.places.iter().position(holds).ok_or(Refusal::NotHeld)?;
        self.places[place] = None;
        Ok(())
    }

    fn held(&self, k: usize) -> Result<&Stream, Refusal> {
        self.places.get(k).and_then(Option::as_ref).ok_or(Refusal::NotHeld)
    }

    /// The stream that place `k` holds, and its H.
    pub fn place(&self, k: usize) -> Result<(u32, u16), Refusal> {
        let stream = self.held(k)?;
        Ok((stream.ssrc, wrapped(stream.highest)))
    }

    /// The oldest number of the window of the stream that place `k` holds.
    pub fn oldest(&self, k: usize) -> Result<u16, Refusal> {
        Ok(wrapped(self.held(k)?.oldest()))
    }
}

#[cfg(test)]
mod tests {
    use super::*;

    fn arrived(mark: u8, time: Option<u32>) -> Arrived {
        Arrived { mark, time }
    }

    fn ahead(passed_over: u16) -> ArrivalKind {
        ArrivalKind::Ahead { passed_over }
    }

    /// A store of one place whose stream 7 has H = `highest`.
    fn one_stream(highest: u16) -> Store {
        let mut store = Store::fresh(1).unwrap();
        assert_eq!(store.arrive(7, highest, arrived(0, None)), Ok(ArrivalKind::First));
        store
    }

    #[test]
    fn numbers_around_the_highest() {
        for (number, answer) in [
            (0, Ok(ArrivalKind::Copy)),
            (65_535, Ok(ArrivalKind::Late)),
            (63_489, Ok(ArrivalKind::Late)),
            (63_488, Err(Refusal::TooOld)),
            (1, Ok(ahead(0))),
            (2, Ok(ahead(1))),
            (32_767, Ok(ahead(32_766))),
            (32_768, Err(Refusal::TooOld)),
        ] {
            let mut store = one_stream(0);
            assert_eq!(store.arrive(7, number, arrived(0, None)), answer, "{number}");
            let is_ahead = matches!(answer, Ok(ArrivalKind::Ahead { .. }));
            let highest = if is_ahead { number } else { 0 };
            assert_eq!(store.place(0), Ok((7, highest)));
        }
    }

    /// A number that comes round again is not a copy of the one before.
    #[test]
    fn kinds() {
        let mut store = one_stream(9);
        for (number, kind) in [
            (9, ArrivalKind::Copy),
            (12, ahead(2)),
            (10, ArrivalKind::Late),
            (10, ArrivalKind::Copy),
            (12, ArrivalKind::Copy),
            (2_060, ahead(2_047)),
            (13, ArrivalKind::Late),
            (34_827, ahead(32_766)),
            (2_058, ahead(32_766)),
            (13, ArrivalKind::Late),
            (13, ArrivalKind::Copy),
            (2_060, ahead(1)),
        ] {
            assert_eq!(store.arrive(7, number, arrived(0, None)), Ok(kind), "{number}");
        }
    }

    #[test]
    fn kinds_after_forgetting() {
        let mut store = one_stream(5);
        assert_eq!(store.arrive(7, 6, arrived(0, None)), Ok(ahead(0)));
        store.forget(7).unwrap();
        assert_eq!(store.arrive(7, 6, arrived(0, None)), Ok(ArrivalKind::First));
        assert_eq!(store.arrive(7, 5, arrived(0, None)), Ok(ArrivalKind::Late));
    }

    #[test]
    fn copies() {
        let mut store = one_stream(9);
        store.arrive(7, 10, arrived(2, None)).unwrap();
        store.arrive(7, 10, arrived(3, Some(5))).unwrap();
        store.arrive(7, 10, arrived(1, Some(4))).unwrap();
        store.arrive(7, 8, arrived(1, Some(9))).unwrap();
        store.arrive(7, 8, arrived(2, Some(4))).unwrap();
        let window = store.stream(7).unwrap().window();
        assert_eq!(window[0], Some(arrived(3, None)));
        assert_eq!(window[1], Some(arrived(0, None)));
        assert_eq!(window[2], Some(arrived(1, Some(9))));
        assert_eq!(window[3], None);
    }

    #[test]
    fn a_jump_empties_what_it_passes() {
        for (jump, stays) in [(1, true), (2_047, true), (2_048, false), (32_767, false)] {
            let mut store = one_stream(0);
            store.arrive(7, jump, arrived(1, None)).unwrap();
            let filled = store.stream(7).unwrap().window().iter().flatten().count();
            assert_eq!(filled, if stays { 2 } else { 1 }, "jump {jump}");
        }
    }

    #[test]
    fn oldest() {
        for (arrivals, oldest) in [
            (&[0][..], 0),
            (&[0, 1, 5], 0),
            (&[5, 3], 3),
            (&[0, 65_535], 65_535),
            (&[0, 63_489], 63_489),
            (&[0, 2_047], 0),
            (&[0, 2_048], 2_048),
            (&[0, 1, 2_048], 1),
            (&[65_000, 100, 65_500], 65_000),
            (&[65_000, 32_000, 31_999], 31_999),
        ] {
            let mut store = Store::fresh(1).unwrap();
            for number in arrivals {
                store.arrive(7, *number, arrived(0, None)).unwrap();
            }
            assert_eq!(store.oldest(0), Ok(oldest), "{arrivals:?}");
            assert_eq!(store.oldest(1), Err(Refusal::NotHeld));
            store.forget(7).unwrap();
            assert_eq!(store.oldest(0), Err(Refusal::NotHeld));
        }
    }

    #[test]
    fn places() {
        let mut store = Store::fresh(2).unwrap();
        let nothing = arrived(0, None);
        assert_eq!(store.place(0), Err(Refusal::NotHeld));
        store.arrive(1, 0, nothing).unwrap();
        store.arrive(2, 0, nothing).unwrap();
        assert_eq!(store.arrive(3, 0, nothing), Err(Refusal::NoFreePlace));
        assert_eq!(store.arrive(3, 0, arrived(4, None)), Err(Refusal::BadMark));
        assert_eq!(store.forget(3), Err(Refusal::NotHeld));
        assert_eq!(store.forget(1), Ok(()));
        assert_eq!(store.arrive(3, 9, nothing), Ok(ArrivalKind::First));
        assert_eq!(store.place(0), Ok((3, 9)));
        assert_eq!(store.place(2), Err(Refusal::NotHeld));
        assert!(Store::fresh(0).is_err() && Store::fresh(17).is_err());
    }
}
