//! How the product's store reads, whatever its words are.
//!
//! The product's store is two lists of 64-bit words, `places` and `cells`, 2,048 cells a place.
//! A place is held exactly if its word divided by 2^48 is 1; the word is then
//! 2^48 + 65536 * SSRC + H. Every other word reads as free. Number n of place p has its cell at
//! 2048 * p + n mod 2048. A cell's word stores what arrived:
//!
//!     word % 16    0-7 empty, 8-11 received at an unknown time, 12-15 at a known time
//!     word % 4     the ECN mark, if received
//!     word / 16    the arrival time (low 32 bits), if known

use crate::metric::Arrived;
use crate::refusal::Refusal;
use crate::store::{wrapped, Store, Stream, CELLS_OF_A_PLACE, WINDOW};

/// What the word of a held place has above SSRC and H.
pub const HELD: u64 = 1 << 48;

/// What the SSRC is multiplied by in the word of a place.
const SSRC_UNIT: u64 = 1 << 16;

/// The word of a place that holds a stream.
pub fn place_word(ssrc: u32, highest: u16) -> u64 {
    HELD + SSRC_UNIT * u64::from(ssrc) + u64::from(highest)
}

/// The store that has accepted one arrival for each filled cell of each held place's window.
pub fn read(places: &[u64], cells: &[u64]) -> Result<Store, Refusal> {
    if cells.len() != CELLS_OF_A_PLACE * places.len() {
        return Err(Refusal::BadStore);
    }
    let of_places = cells.chunks(CELLS_OF_A_PLACE);
    Store::new(places.iter().zip(of_places).map(|(word, cells)| stream(*word, cells)).collect())
}

/// The SSRC and H of a held place.
pub fn held(word: u64) -> Option<(u32, u16)> {
    let fields = word.checked_sub(HELD).filter(|fields| *fields < HELD)?;
    Some(((fields / SSRC_UNIT) as u32, (fields % SSRC_UNIT) as u16))
}

fn stream(word: u64, cells: &[u64]) -> Option<Stream> {
    let (ssrc, highest) = held(word)?;
    let highest = i64::from(highest);
    let accepted = WINDOW
        .filter_map(|back| {
            let full = highest - back;
            let cell = cells[usize::from(wrapped(full)) % cells.len()];
            arrived(cell).map(|arrived| (full, vec![arrived]))
        })
        .collect();
    Some(Stream { ssrc, highest, accepted })
}

fn arrived(cell: u64) -> Option<Arrived> {
    let time = (cell / 16 % (1 << 32)) as u32;
    let mark = (cell % 4) as u8;
    match cell % 16 {
        0..=7 => None,
        8..=11 => Some(Arrived { mark, time: None }),
        _ => Some(Arrived { mark, time: Some(time) }),
    }
}

#[cfg(test)]
mod tests {
    use super::*;
    use crate::store::ArrivalKind;

    #[test]
    fn words() {
        let places = [0, place_word(0xFFFF_FFFF, 1), 2 * HELD + 5, place_word(0xFFFF_FFFF, 9)];
        let mut cells = vec![0; 4 * CELLS_OF_A_PLACE];
        cells[CELLS_OF_A_PLACE + 1] = 16 * 77 + 14;
        cells[CELLS_OF_A_PLACE + 2_047] = u64::MAX - 16 * 5 - 6;
        let store = read(&places, &cells).unwrap();
        assert_eq!(store.place(1), Ok((0xFFFF_FFFF, 1)));
        assert_eq!(store.place(2), Err(Refusal::NotHeld));
        assert_eq!(store.oldest(1), Ok(65_535));
        assert_eq!(store.oldest(2), Err(Refusal::NotHeld));
        assert_eq!(store.oldest(3), Ok(9), "no cell of the window is filled");
        let stream = store.stream(0xFFFF_FFFF).unwrap();
        assert_eq!(stream.highest, 1);
        let window = stream.window();
        assert_eq!(window[0], Some(Arrived { mark: 2, time: Some(77) }));
        assert_eq!(window[1], None);
        assert_eq!(window[2], Some(Arrived { mark: 1, time: None }));
    }

    /// By the cell, at H too. A stream in two places stays held when the lower one is freed.
    #[test]
    fn kinds() {
        let places = [place_word(7, 9), place_word(7, 20)];
        let mut cells = vec![0; 2 * CELLS_OF_A_PLACE];
        cells[8] = 8;
        // The cell of 63,498, the lowest number of the window; 10 will have it.
        cells[10] = 12;
        let mut store = read(&places, &cells).unwrap();
        let nothing = Arrived { mark: 0, time: None };
        for (number, kind) in [
            (9, ArrivalKind::Late),
            (9, ArrivalKind::Copy),
            (8, ArrivalKind::Copy),
            (7, ArrivalKind::Late),
            (63_498, ArrivalKind::Copy),
            (10, ArrivalKind::Ahead { passed_over: 0 }),
        ] {
            assert_eq!(store.arrive(7, number, nothing), Ok(kind), "{number}");
        }
        store.forget(7).unwrap();
        assert_eq!(store.arrive(7, 22, nothing), Ok(ArrivalKind::Ahead { passed_over: 1 }));
        assert_eq!(store.arrive(7, 20, nothing), Ok(ArrivalKind::Late));
    }

    #[test]
    fn shapes() {
        let cells_of = |places| places * CELLS_OF_A_PLACE;
        for (places, cells) in
            [(0, 0), (17, cells_of(17)), (1, cells_of(1) - 1), (2, cells_of(1)), (1, cells_of(2))]
        {
            let read = read(&vec![0; places], &vec![0; cells]);
            assert!(matches!(read, Err(Refusal::BadStore)), "{places} {cells}");
        }
    }
}
