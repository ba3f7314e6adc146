//! Writing; a step is a metric.

use super::{row, Row, AGES};
use crate::baseline::store::{filled_word, place_word};
use crate::baseline::writer::BASELINE;
use crate::calls::store::Words;
use crate::calls::writer::WriterCalls;
use crate::cutting::Request;
use crate::rng::{Rng, USUAL_SEED};
use crate::store::MOST_PLACES;
use crate::writer::Report;
use std::hint::black_box;

const RTS: u32 = 0x0100_0000;

/// H of every stream.
const HIGHEST: u16 = 3_000;

/// How many metrics a run writes, at least.
const METRICS: usize = 16_384;

pub fn rows() -> Vec<Row> {
    [(1, 64, 1_200), (16, 36, 1_200), (1, 590, 1_200), (16, 2_048, 1_200), (16, 2_048, 24)]
        .into_iter()
        .map(write_row)
        .collect()
}

/// Streams 0 to 15, with cells as arrivals leave them, some of them empty.
fn store() -> Words {
    let mut rng = Rng::of_case(USUAL_SEED, 0);
    let mut words = Words::fresh(MOST_PLACES);
    for (place, ssrc) in words.places.iter_mut().zip(0..) {
        *place = place_word(ssrc, HIGHEST);
    }
    for cell in &mut words.cells {
        let time = RTS - rng.below(AGES) as u32;
        let time_known = !rng.one_in(16);
        let empty = rng.one_in(20);
        *cell = if empty { 0 } else { filled_word(rng.below(4) as u8, time_known, time) };
    }
    words
}

fn write_row((requests, count, limit): (u32, u16, usize)) -> Row {
    let words = store();
    let request = |ssrc| Request { ssrc, begin: HIGHEST + 1 - count, count };
    let requests: Vec<Request> = (0..requests).map(request).collect();
    let metrics = requests.len() * usize::from(count);
    let times = 1 + METRICS / metrics;
    let report = Report { sender: 1, rts: RTS, limit };
    let name = format!("write {} of {count}, limit {limit}", requests.len());
    let fresh = |_| vec![0u8; 24 * metrics];
    row(&name, (WriterCalls::product(), BASELINE), times * metrics, fresh, |calls, out| {
        for _ in 0..times {
            let written = calls.write(&words, report, &requests, out);
            black_box(written.expect("accepted"));
        }
    })
}
