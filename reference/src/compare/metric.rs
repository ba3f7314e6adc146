//! Metric: every metric decoded, every edge age with every mark, and random ages and times.

use super::{numbered, Mismatch, Tally};
use crate::calls::metric::MetricCalls;
use crate::metric::{decode, encode, Arrived};
use crate::rng::{rounds, Rng};

/// Ages at which the offset changes its kind, and some at which it changes its value.
const EDGE_AGES: [u32; 10] =
    [0, 63, 64, 128, 524_032, 524_096, 524_097, 0x7FFF_FFFF, 0x8000_0000, 0xFFFF_FFFF];

const EDGE_RTS: [u32; 8] = [0, 1, 63, 0xFFFF, 524_096, 0x7FFF_FFFF, 0x8000_0000, 0xFFFF_FFFF];

/// Random ages are mostly below this: most have an offset, some are over range.
const AGES: u64 = 600_000;

pub fn run(calls: &MetricCalls, tally: &mut Tally) -> Result<(), Mismatch> {
    every_decode(calls, tally)?;
    edges(calls, tally)?;
    random(calls, tally)
}

fn every_decode(calls: &MetricCalls, tally: &mut Tally) -> Result<(), Mismatch> {
    for metric in 0..=u16::MAX {
        tally.same(&("decode", metric), calls.decode(metric), Ok(decode(metric)))?;
    }
    Ok(())
}

fn compare_encode(
    calls: &MetricCalls,
    tally: &mut Tally,
    arrived: Arrived,
    rts: u32,
    idle: u32,
) -> Result<(), Mismatch> {
    let ours = calls.encode(arrived.mark, arrived.time, idle, rts);
    tally.same(&("encode", arrived, rts, idle), ours, numbered(encode(Some(arrived), rts)))
}

fn edges(calls: &MetricCalls, tally: &mut Tally) -> Result<(), Mismatch> {
    for age in EDGE_AGES.iter().flat_map(|age| [age.wrapping_sub(1), *age, age.wrapping_add(1)]) {
        for rts in EDGE_RTS {
            let time = rts.wrapping_sub(age);
            for mark in 0..=u8::MAX {
                for known in [Some(time), None] {
                    compare_encode(calls, tally, Arrived { mark, time: known }, rts, time)?;
                }
            }
        }
    }
    Ok(())
}

fn random(calls: &MetricCalls, tally: &mut Tally) -> Result<(), Mismatch> {
    for case in 0..rounds(10_000_000) {
        tally.case = case;
        let mut rng = Rng::of_case(tally.seed, case);
        let rts = rng.u32();
        let age = match rng.below(4) {
            0 => rng.u32(),
            1 => rng.pick(&EDGE_AGES).wrapping_add(rng.below(257) as u32).wrapping_sub(128),
            _ => rng.below(AGES) as u32,
        };
        let mark = if rng.one_in(64) { rng.below(256) } else { rng.below(4) } as u8;
        let time = if rng.one_in(16) { None } else { Some(rts.wrapping_sub(age)) };
        compare_encode(calls, tally, Arrived { mark, time }, rts, age)?;
    }
    Ok(())
}
