//! The benchmark: each row runs the same work on libccfb.a and on the baseline.

mod ccfbline;
mod datagram;
mod metric;
mod packet;
mod sent;
mod store;
mod writer;

use std::time::{Duration, Instant};

const RUNS: u32 = 30;

/// Random ages are below this: most have an offset, some are over range.
const AGES: u64 = 600_000;

/// A row of the table: nanoseconds for one step, ours `None` without libccfb.a.
pub struct Row {
    pub name: String,
    pub ours: Option<f64>,
    pub baseline: f64,
}

/// Every row, in order.
pub fn rows() -> Vec<Row> {
    let mut rows = metric::rows();
    rows.extend(store::rows());
    rows.extend(packet::rows());
    rows.extend(writer::rows());
    rows.extend(datagram::rows());
    rows.extend(sent::rows());
    rows.extend(ccfbline::rows());
    rows
}

/// Best of the runs, ours and the baseline in turn so that both meet the same load. A run does
/// `steps` steps; `prepare` runs before it, untimed.
fn row<C: Copy, S>(
    name: &str,
    (ours, baseline): (Option<C>, C),
    steps: usize,
    mut prepare: impl FnMut(C) -> S,
    work: impl Fn(C, &mut S),
) -> Row {
    let mut best = (Duration::MAX, Duration::MAX);
    for _ in 0..RUNS {
        if let Some(calls) = ours {
            best.0 = best.0.min(timed(calls, &mut prepare, &work));
        }
        best.1 = best.1.min(timed(baseline, &mut prepare, &work));
    }
    let a_step = |time: Duration| time.as_nanos() as f64 / steps as f64;
    Row { name: name.to_string(), ours: ours.map(|_| a_step(best.0)), baseline: a_step(best.1) }
}

/// One run. Never inlined, so that ours and the baseline are called by one and the same loop: two
/// copies of a loop lie at different addresses, which changes the time of a short row.
#[inline(never)]
fn timed<C: Copy, S>(
    calls: C,
    prepare: &mut impl FnMut(C) -> S,
    work: &impl Fn(C, &mut S),
) -> Duration {
    // The table passes through black_box, so that no call is known at compile time.
    let calls = std::hint::black_box(calls);
    let mut state = prepare(calls);
    let start = Instant::now();
    work(calls, &mut state);
    start.elapsed()
}
