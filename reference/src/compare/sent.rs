//! A sender's store: the edges of the window, every metric over every status, random runs of
//! registrations and feedback, any content, wrong shapes.

use super::feedback::{Feedback, Reported};
use super::lent_words::random_words;
use super::sent_pair::{Call, Pair};
use super::store::next_number;
use super::{Mismatch, Tally};
use crate::calls::sent::SentCalls;
use crate::calls::store::Words;
use crate::metric::{decode, Metric};
use crate::packet::{Block, Packet};
use crate::refusal::Refusal;
use crate::rng::{rounds, Rng};
use crate::sent_words::entered;
use crate::store::{wrapped, CELLS_OF_A_PLACE, MOST_PLACES};

pub fn run(calls: &SentCalls, tally: &mut Tally) -> Result<(), Mismatch> {
    edges(calls, tally)?;
    every_metric(calls, tally)?;
    wrong_shapes(calls, tally)?;
    for places in [1, 2, 4, MOST_PLACES] {
        for _ in 0..rounds(20) {
            tally.case += 1;
            random_run(calls, tally, places, 2_000)?;
        }
    }
    for _ in 0..rounds(300) {
        tally.case += 1;
        lent_run(calls, tally)?;
    }
    Ok(())
}

/// A packet of one block, of stream 7.
fn packet(rts: u32, begin: u16, metrics: Vec<u16>) -> Call {
    let blocks = vec![Block { ssrc: 7, begin, metrics }];
    Call::TakeIn(Packet { sender: 1, rts, blocks }.octets())
}

/// A store of one place, whose stream 7 has sent every number of its window.
fn whole_window<'a>(
    calls: &'a SentCalls,
    tally: &mut Tally,
    highest: u16,
) -> Result<Pair<'a>, Mismatch> {
    let mut pair = Pair::fresh(calls, 1);
    for back in (0..CELLS_OF_A_PLACE as u16).rev() {
        let number = highest.wrapping_sub(back);
        pair.answer(tally, &Call::Register { ssrc: 7, number })?;
    }
    Ok(pair)
}

/// Blocks that start and end about the ends of a window, and numbers registered after them.
fn edges(calls: &SentCalls, tally: &mut Tally) -> Result<(), Mismatch> {
    let mut rng = Rng::of_case(tally.seed, 0);
    for highest in [0u16, 1, 2_046, 2_047, 2_048, 40_000, 65_535] {
        for back in [0u16, 1, 2_046, 2_047, 2_048, 2_049, 16_383, 16_384, 32_768, 65_535] {
            for count in [0, 1, 2, 3, 2_047, 2_048, 2_049, 16_384] {
                let mut pair = whole_window(calls, tally, highest)?;
                let begin = highest.wrapping_sub(back);
                pair.call(tally, &mut rng, &packet(5, begin, vec![0xA002; count]))?;
                let number = highest.wrapping_add(rng.pick(&[1, 2, 2_047, 2_048, 32_767]));
                pair.call_closely(tally, &mut rng, &Call::Register { ssrc: 7, number })?;
            }
        }
    }
    Ok(())
}

/// RTS of the reports before.
const RTS_BEFORE: u32 = 7;

/// Every metric as a report on a number of each status. Here the words themselves are compared.
fn every_metric(calls: &SentCalls, tally: &mut Tally) -> Result<(), Mismatch> {
    let mut rng = Rng::of_case(tally.seed, 1);
    let window = CELLS_OF_A_PLACE as u16;
    let reports_before = [None, Some(0x0000), Some(0x8001), Some(0xFFFE), Some(0xFFFF)];
    for (i, before) in reports_before.into_iter().enumerate() {
        for first in (0..=u16::MAX).step_by(CELLS_OF_A_PLACE) {
            let mut pair = whole_window(calls, tally, first.wrapping_sub(1))?;
            let begin = first.wrapping_sub(window);
            if let Some(metric) = before {
                let reports = vec![metric; CELLS_OF_A_PLACE];
                pair.answer(tally, &packet(RTS_BEFORE, begin, reports))?;
            }
            let rts = [rng.u32(), 0, 63, 524_095, u32::MAX][i];
            let metrics: Vec<u16> = (0..window).map(|above| first + above).collect();
            pair.call_closely(tally, &mut rng, &packet(rts, begin, metrics.clone()))?;
            let words: Vec<u64> =
                metrics.iter().map(|metric| word_after(before, *metric, rts)).collect();
            tally.same(&("words", before, first, rts), &pair.words.cells, &words)?;
        }
    }
    Ok(())
}

/// The word of a number after a report with RTS_BEFORE, or none, and then this one.
fn word_after(before: Option<u16>, metric: u16, rts: u32) -> u64 {
    let is_received = |metric: u16| decode(metric) != Metric::NotReceived;
    match before {
        Some(before) if is_received(before) && !is_received(metric) => entered(before, RTS_BEFORE),
        _ => entered(metric, rts),
    }
}

/// Every call refuses every wrong shape with 4, before any other refusal, and changes no word.
fn wrong_shapes(calls: &SentCalls, tally: &mut Tally) -> Result<(), Mismatch> {
    let mut rng = Rng::of_case(tally.seed, 2);
    for places in 0..=20usize {
        let ring = CELLS_OF_A_PLACE;
        let right = ring * places;
        let lengths = [0, 1, ring, right, right + 1, right + ring, right.saturating_sub(1)];
        for cells in lengths.into_iter().chain([right.saturating_sub(ring), places]) {
            if cells == right && (1..=MOST_PLACES).contains(&places) {
                continue;
            }
            let mut words = random_words(&mut rng, places);
            words.cells.resize_with(cells, || rng.u64());
            wrong_shape(calls, tally, words)?;
        }
    }
    Ok(())
}

fn wrong_shape(calls: &SentCalls, tally: &mut Tally, words: Words) -> Result<(), Mismatch> {
    let shape = (words.places.len(), words.cells.len());
    let bad_store = Refusal::BadStore.number();
    let mut ours = words.clone();
    for ssrc in [0, 7, u32::MAX] {
        let answer = calls.register(&mut ours, ssrc, 1);
        tally.same(&("register", shape, ssrc), answer, Err(bad_store))?;
        let answer = calls.status(&ours, ssrc, 1);
        tally.same(&("status", shape, ssrc), answer, Err(bad_store))?;
    }
    let Call::TakeIn(good) = packet(5, 0, vec![0x8000; 3]) else {
        unreachable!("a packet is taken in");
    };
    for kept in [0, good.len() - 1, good.len()] {
        let answer = calls.take_in(&mut ours, &good[..kept]);
        tally.same(&("take in", shape, kept), answer, Err(bad_store))?;
    }
    tally.same(&("words unchanged", shape), ours == words, true)
}

/// A registration, or feedback on the streams.
fn next_call(rng: &mut Rng, pair: &Pair, streams: &[u32], feedback: &mut Feedback) -> Call {
    if rng.one_in(2) {
        let held = pair.model.places().iter().flatten();
        let held: Vec<Reported> = held.map(|s| (s.ssrc, wrapped(s.highest))).collect();
        return Call::TakeIn(feedback.next(rng, &held, streams));
    }
    let ssrc = rng.pick(streams);
    let number = match pair.model.stream(ssrc) {
        Some(stream) => next_number(rng, stream.highest),
        None => rng.u16(),
    };
    Call::Register { ssrc, number }
}

/// Registers the next numbers of a stream in order, but for some.
fn burst(
    tally: &mut Tally,
    rng: &mut Rng,
    pair: &mut Pair,
    streams: &[u32],
) -> Result<(), Mismatch> {
    let ssrc = rng.pick(streams);
    let Some(highest) = pair.model.stream(ssrc).map(|stream| stream.highest) else {
        return Ok(());
    };
    let one_in = rng.pick(&[2, 10, 1_000]);
    for ahead in 1..rng.below(700) as i64 {
        if !rng.one_in(one_in) {
            let number = wrapped(highest + ahead);
            pair.answer(tally, &Call::Register { ssrc, number })?;
        }
    }
    Ok(())
}

fn random_run(
    calls: &SentCalls,
    tally: &mut Tally,
    places: usize,
    length: u32,
) -> Result<(), Mismatch> {
    let mut rng = Rng::of_case(tally.seed, tally.case);
    let mut streams = vec![0, u32::MAX];
    streams.extend((0..places).map(|_| rng.u32()));
    let mut pair = Pair::fresh(calls, places);
    let mut feedback = Feedback::default();
    for _ in 0..length {
        if rng.one_in(8) {
            burst(tally, &mut rng, &mut pair, &streams)?;
        }
        let call = next_call(&mut rng, &pair, &streams, &mut feedback);
        if rng.one_in(200) {
            pair.call_closely(tally, &mut rng, &call)?;
        } else {
            pair.call(tally, &mut rng, &call)?;
        }
    }
    Ok(())
}

/// A few calls on a store of random content.
fn lent_run(calls: &SentCalls, tally: &mut Tally) -> Result<(), Mismatch> {
    let mut rng = Rng::of_case(tally.seed, tally.case);
    let places = 1 + rng.below(MOST_PLACES as u64) as usize;
    let mut pair = Pair::lent(calls, random_words(&mut rng, places));
    let mut streams: Vec<u32> =
        pair.model.places().iter().flatten().map(|held| held.ssrc).collect();
    streams.extend([0, rng.u32()]);
    let mut feedback = Feedback::default();
    for _ in 0..6 {
        let call = next_call(&mut rng, &pair, &streams, &mut feedback);
        pair.call_closely(tally, &mut rng, &call)?;
    }
    Ok(())
}
