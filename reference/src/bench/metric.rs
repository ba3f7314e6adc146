//! Encode and decode; a step is a metric.

use super::{row, Row, AGES};
use crate::baseline::metric::BASELINE;
use crate::calls::metric::MetricCalls;
use crate::rng::{Rng, USUAL_SEED};
use std::hint::black_box;

const METRICS: usize = 16_384;

const RTS: u32 = 0x0100_0000;

pub fn rows() -> Vec<Row> {
    vec![encode_row(), decode_row()]
}

fn encode_row() -> Row {
    let mut rng = Rng::of_case(USUAL_SEED, 0);
    let mut cell = || (rng.below(4) as u8, !rng.one_in(16), RTS - rng.below(AGES) as u32);
    let cells: Vec<(u8, bool, u32)> = (0..METRICS).map(|_| cell()).collect();
    let calls = (MetricCalls::product(), BASELINE);
    row(
        "metric encode",
        calls,
        METRICS,
        |_| (),
        |calls, _| {
            let mut sum = 0u32;
            for &(mark, time_known, time) in &cells {
                let mut metric = 0;
                // SAFETY: the pointer is to a local of its type.
                unsafe { (calls.encode)(mark, time_known, time, RTS, &mut metric) };
                sum = sum.wrapping_add(u32::from(metric));
            }
            black_box(sum);
        },
    )
}

fn decode_row() -> Row {
    let mut rng = Rng::of_case(USUAL_SEED, 1);
    let metrics: Vec<u16> = (0..METRICS).map(|_| rng.u16()).collect();
    let calls = (MetricCalls::product(), BASELINE);
    row(
        "metric decode",
        calls,
        METRICS,
        |_| (),
        |calls, _| {
            let mut sum = 0u32;
            for &metric in &metrics {
                let (mut kind, mut mark, mut offset) = (0, 0, 0);
                // SAFETY: the pointers are to locals of their type.
                unsafe { (calls.decode)(metric, &mut kind, &mut mark, &mut offset) };
                sum = sum.wrapping_add(u32::from(kind) + u32::from(mark) + u32::from(offset));
            }
            black_box(sum);
        },
    )
}
