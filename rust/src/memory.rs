//! The memory of a store, or of sent packets.

#[cfg(feature = "alloc")]
use alloc::{boxed::Box, vec};

#[cfg(feature = "alloc")]
use crate::{CELLS_OF_A_PLACE, MOST_PLACES};

/// The two arrays of a store, or of sent packets.
#[derive(Clone, Copy)]
pub struct Words<'s> {
    pub places: &'s [u64],
    pub cells: &'s [u64],
}

/// The two arrays, to change them.
pub struct WordsMut<'s> {
    pub places: &'s mut [u64],
    pub cells: &'s mut [u64],
}

/// What has the two arrays. They are of the lengths that the library asks for.
pub trait HasWords {
    fn words(&self) -> Words<'_>;
    fn words_mut(&mut self) -> WordsMut<'_>;
}

/// The memory of a store, or of sent packets: `Owned` or [`Borrowed`]. Only this crate implements
/// it.
pub trait Memory: HasWords {}

/// Memory on the heap for so many places, 1 to 16. Needs the feature `alloc`.
///
/// The value itself does not hold it: a place takes 16 KiB, and a value that holds 16 places could
/// overflow the stack when it is made or moved. Without a heap, [`Borrowed`] memory does the same.
#[cfg(feature = "alloc")]
#[derive(Clone)]
pub struct Owned<const PLACES: usize> {
    places: Box<[u64]>,
    cells: Box<[u64]>,
}

#[cfg(feature = "alloc")]
impl<const PLACES: usize> Owned<PLACES> {
    const PLACES_IN_RANGE: () = assert!(1 <= PLACES && PLACES <= MOST_PLACES, "1 to 16 places");

    pub(crate) fn zeroed() -> Owned<PLACES> {
        let () = Self::PLACES_IN_RANGE;
        let zeroed = |words| vec![0; words].into_boxed_slice();
        Owned { places: zeroed(PLACES), cells: zeroed(CELLS_OF_A_PLACE * PLACES) }
    }
}

#[cfg(feature = "alloc")]
impl<const PLACES: usize> HasWords for Owned<PLACES> {
    fn words(&self) -> Words<'_> {
        Words { places: &self.places, cells: &self.cells }
    }

    fn words_mut(&mut self) -> WordsMut<'_> {
        WordsMut { places: &mut self.places, cells: &mut self.cells }
    }
}

#[cfg(feature = "alloc")]
impl<const PLACES: usize> Memory for Owned<PLACES> {}

/// Memory that a store, or sent packets, borrow.
pub struct Borrowed<'a> {
    places: &'a mut [u64],
    cells: &'a mut [u64],
}

impl<'a> Borrowed<'a> {
    pub(crate) fn new(places: &'a mut [u64], cells: &'a mut [u64]) -> Borrowed<'a> {
        Borrowed { places, cells }
    }
}

impl HasWords for Borrowed<'_> {
    fn words(&self) -> Words<'_> {
        Words { places: self.places, cells: self.cells }
    }

    fn words_mut(&mut self) -> WordsMut<'_> {
        WordsMut { places: self.places, cells: self.cells }
    }
}

impl Memory for Borrowed<'_> {}
