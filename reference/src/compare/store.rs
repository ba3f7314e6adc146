//! Store: the cases at the edges, every distance from H, every mark after every mark, random runs
//! from a fresh store, any content, wrong shapes.

use super::lent_words::random_words;
use super::pair::{Call, Pair};
use super::{Mismatch, Tally};
use crate::calls::store::{StoreCalls, Words};
use crate::lent::place_word;
use crate::metric::Arrived;
use crate::refusal::Refusal;
use crate::rng::{rounds, Rng};
use crate::store::{wrapped, CELLS_OF_A_PLACE, MOST_PLACES};

/// A cell reads as its word modulo this says.
const WORD_KINDS: u64 = 16;

pub fn run(calls: &StoreCalls, tally: &mut Tally) -> Result<(), Mismatch> {
    edges(calls, tally)?;
    every_distance(calls, tally)?;
    marks_of_copies(calls, tally)?;
    cell_words(calls, tally)?;
    wrong_shapes(calls, tally)?;
    for places in [1, 2, 4, MOST_PLACES] {
        for _ in 0..rounds(20) {
            tally.case += 1;
            random_run(calls, tally, places, 5_000)?;
        }
    }
    for _ in 0..rounds(150) {
        tally.case += 1;
        lent_run(calls, tally)?;
    }
    Ok(())
}

fn arrival(ssrc: u32, number: u16, mark: u8, time: Option<u32>) -> Call {
    Call::Arrive { ssrc, number, arrived: Arrived { mark, time }, idle: 0 }
}

/// Numbers around H = 0, twice each, and again once the stream was forgotten; and copies. One store
/// for each case.
fn edges(calls: &StoreCalls, tally: &mut Tally) -> Result<(), Mismatch> {
    let around = [65_535, 63_489, 63_488, 32_767, 32_768, 0, 1, 2, 2_047, 2_048, 2_049];
    let mut runs: Vec<Vec<Call>> = around
        .map(|number| {
            let (first, other) = (arrival(7, 0, 0, None), arrival(7, number, 1, None));
            vec![first, other, other, Call::Forget { ssrc: 7 }, other, first]
        })
        .to_vec();
    let copies = |copies: &[(u8, Option<u32>)]| {
        copies.iter().map(|(mark, time)| arrival(7, 9, *mark, *time)).collect()
    };
    runs.push(copies(&[(2, None), (1, Some(5))]));
    runs.push(copies(&[(2, Some(5)), (3, Some(4)), (1, None)]));
    for run in runs {
        let mut pair = Pair::fresh(calls, 1);
        for call in run {
            pair.call_closely(tally, call)?;
        }
    }
    Ok(())
}

/// A number at every distance from H, in a store with one arrival.
fn every_distance(calls: &StoreCalls, tally: &mut Tally) -> Result<(), Mismatch> {
    let mut rng = Rng::of_case(tally.seed, 0);
    for distance in 0..=u16::MAX {
        let highest = rng.u16();
        let mut pair = Pair::fresh(calls, 1);
        pair.call(tally, arrival(7, highest, 0, None))?;
        pair.call(tally, arrival(7, highest.wrapping_add(distance), 0, None))?;
    }
    Ok(())
}

/// Every kind of word in the cell of a number that arrives, twice, in a window that is empty
/// otherwise; then H arrives, also where its cell is empty.
fn cell_words(calls: &StoreCalls, tally: &mut Tally) -> Result<(), Mismatch> {
    let mut rng = Rng::of_case(tally.seed, 0);
    for kind in 0..WORD_KINDS {
        for behind in [0, 1, 1_000, 2_046, 2_047] {
            let highest = rng.u16();
            let number = highest.wrapping_sub(behind);
            let mut words = Words::fresh(1);
            words.places[0] = place_word(7, highest);
            let word = rng.u64() / WORD_KINDS * WORD_KINDS + kind;
            words.cells[usize::from(number) % CELLS_OF_A_PLACE] = word;
            let mut pair = Pair::lent(calls, words);
            for number in [number, number, highest] {
                pair.call_closely(tally, arrival(7, number, 1, Some(5)))?;
            }
        }
    }
    Ok(())
}

/// Three arrivals of one number with every choice of marks, of H and of a number behind it; the
/// first with a time and without.
fn marks_of_copies(calls: &StoreCalls, tally: &mut Tally) -> Result<(), Mismatch> {
    for case in 0..4 * 4 * 4 {
        let marks = [case / 16, case / 4 % 4, case % 4];
        for (number, first) in [(9, None), (9, Some(5)), (8, None), (8, Some(5))] {
            let mut pair = Pair::fresh(calls, 1);
            if number == 8 {
                pair.call_closely(tally, arrival(7, 9, 0, None))?;
            }
            for (mark, time) in marks.into_iter().zip([first, Some(4), None]) {
                pair.call_closely(tally, arrival(7, number, mark, time))?;
            }
        }
    }
    Ok(())
}

/// Every call refuses every wrong shape with 4, before any other refusal, and changes no word.
fn wrong_shapes(calls: &StoreCalls, tally: &mut Tally) -> Result<(), Mismatch> {
    let mut rng = Rng::of_case(tally.seed, 0);
    for places in 0..=20usize {
        let ring = CELLS_OF_A_PLACE;
        let right = ring * places;
        let lengths = [0, 1, ring, right, right + 1, right + ring, right.saturating_sub(1)];
        for cells in lengths.into_iter().chain([right.saturating_sub(ring), places]) {
            if cells == right && (1..=MOST_PLACES).contains(&places) {
                continue;
            }
            let mut words = random_words(&mut rng, places);
            words.cells.resize_with(cells, || rng.u64());
            wrong_shape(calls, tally, words)?;
        }
    }
    Ok(())
}

fn wrong_shape(calls: &StoreCalls, tally: &mut Tally, words: Words) -> Result<(), Mismatch> {
    let shape = (words.places.len(), words.cells.len());
    let bad_store = Refusal::BadStore.number();
    let mut ours = words.clone();
    for mark in [0, 4] {
        let answer = calls.arrive(&mut ours, 1, 1, Arrived { mark, time: None }, 0);
        tally.same(&("arrive", shape, mark), answer, Err(bad_store))?;
    }
    tally.same(&("forget", shape), calls.forget(&mut ours, 1), Err(bad_store))?;
    for k in [0, shape.0, usize::MAX] {
        tally.same(&("place", shape, k), calls.place(&ours, k), Err(bad_store))?;
        tally.same(&("oldest", shape, k), calls.oldest(&ours, k), Err(bad_store))?;
    }
    tally.same(&("words unchanged", shape), ours == words, true)
}

/// Distances from H that matter, forwards and backwards.
const JUMPS: [i64; 10] = [0, 1, 2, 2_047, 2_048, 2_049, 32_767, 32_768, 4_096, 30_000];

/// A number at one of these distances, or near H.
pub(super) fn next_number(rng: &mut Rng, highest: i64) -> u16 {
    let step = match rng.below(16) {
        0..=5 => 1,
        6 | 7 => -(rng.below(8) as i64),
        8 => -(rng.below(2_100) as i64),
        9 | 10 => rng.below(100) as i64,
        11 => rng.below(65_536) as i64,
        12 | 13 => -rng.pick(&JUMPS),
        _ => rng.pick(&JUMPS),
    };
    wrapped(highest + step)
}

fn next_call(rng: &mut Rng, pair: &Pair, streams: &[u32]) -> Call {
    let ssrc = rng.pick(streams);
    if rng.one_in(100) {
        return Call::Forget { ssrc };
    }
    let number = match pair.model.stream(ssrc) {
        Some(stream) => next_number(rng, stream.highest),
        None => rng.u16(),
    };
    let mark = if rng.one_in(50) { 4 + rng.below(252) } else { rng.below(4) } as u8;
    let time = if rng.one_in(8) { None } else { Some(rng.u32()) };
    Call::Arrive { ssrc, number, arrived: Arrived { mark, time }, idle: rng.u32() }
}

fn random_run(
    calls: &StoreCalls,
    tally: &mut Tally,
    places: usize,
    length: u32,
) -> Result<(), Mismatch> {
    let mut rng = Rng::of_case(tally.seed, tally.case);
    let mut streams = vec![0, u32::MAX];
    streams.extend((0..places).map(|_| rng.u32()));
    let mut pair = Pair::fresh(calls, places);
    for _ in 0..length {
        let call = next_call(&mut rng, &pair, &streams);
        if rng.one_in(200) {
            pair.call_closely(tally, call)?;
        } else {
            pair.call(tally, call)?;
        }
    }
    Ok(())
}

/// A few calls on a store of random content.
fn lent_run(calls: &StoreCalls, tally: &mut Tally) -> Result<(), Mismatch> {
    let mut rng = Rng::of_case(tally.seed, tally.case);
    let places = 1 + rng.below(MOST_PLACES as u64) as usize;
    let mut pair = Pair::lent(calls, random_words(&mut rng, places));
    let mut streams: Vec<u32> =
        pair.model.places().iter().flatten().map(|held| held.ssrc).collect();
    streams.extend([0, rng.u32()]);
    for _ in 0..12 {
        let call = next_call(&mut rng, &pair, &streams);
        let call = if rng.one_in(8) { Call::Forget { ssrc: rng.pick(&streams) } } else { call };
        pair.call_closely(tally, call)?;
    }
    Ok(())
}
