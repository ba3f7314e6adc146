//! Stores of random content.

use crate::calls::store::Words;
use crate::lent::{place_word, HELD};
use crate::rng::Rng;
use crate::store::CELLS_OF_A_PLACE;

/// The bit that a filled cell has and an empty one lacks.
const FILLED: u64 = 8;

/// Any content: held places, some with one SSRC in common, words that are nearly held, and cells
/// of any bits. The cells of some stores are mostly empty, and a few windows wholly.
pub fn random_words(rng: &mut Rng, places: usize) -> Words {
    let any_of = rng.pick(&[1, 1, 8, 2 * CELLS_OF_A_PLACE as u64]);
    let empty_bits = rng.pick(&[0, !FILLED]);
    let places = (0..places).map(|_| random_place(rng)).collect::<Vec<u64>>();
    let cells = (0..CELLS_OF_A_PLACE * places.len())
        .map(|_| if rng.one_in(any_of) { rng.u64() } else { rng.u64() & empty_bits })
        .collect();
    Words { places, cells }
}

fn random_place(rng: &mut Rng) -> u64 {
    let ssrc = match rng.below(3) {
        0 => rng.u32(),
        1 => rng.pick(&[0, u32::MAX]),
        _ => rng.below(4) as u32,
    };
    let highest = match rng.below(2) {
        0 => rng.u16(),
        _ => rng.pick(&[0, 1, 2_046, 2_047, 2_048, 32_768, 65_535]),
    };
    let held = place_word(ssrc, highest);
    let fields = held - HELD;
    match rng.below(16) {
        0 => rng.u64(),
        1 => fields,
        2 => fields + 2 * HELD,
        3 => fields + 0x8001 * HELD,
        4 => fields + 3 * HELD,
        5 => 0,
        _ => held,
    }
}
