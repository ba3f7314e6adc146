//! The drawing of one stream: the delay before RTS over the sequence number. Numbers without a
//! delay have lanes of their own: over range and no time above the delays, missing below them.

use crate::element::{diamond, dot, level, path, px, text, upright};
use crate::scale::{Delays, Numbers};
use crate::show;
use crate::streams::{wrapped, Stream};
use ccfb::{Mark, Metric};

/// The width of the part with the marks. The names at the left are outside of it.
pub const WIDTH: f64 = 790.0;

// What stands how far below the heading.
const LANES_TOP: f64 = 12.0;
const NO_TIME_LANE: f64 = 18.0;
const OVER_RANGE_LANE: f64 = 32.0;
const DELAYS_TOP: f64 = 50.0;
const DELAYS_BOTTOM: f64 = 150.0;
const DELAYS_MIDDLE: f64 = (DELAYS_TOP + DELAYS_BOTTOM) / 2.0;
const MISSING_LANE: f64 = 164.0;
const LANES_BOTTOM: f64 = 170.0;
const NUMBER_NAMES: f64 = 186.0;
const NUMBER_AXIS_NAME: f64 = 201.0;
const NEXT_PANEL: f64 = 230.0;
/// The panel after one that has no number to draw.
const NEXT_AFTER_NONE: f64 = 32.0;

pub const HAIRLINE: f64 = 1.0;
const LANE_HEIGHT: f64 = 12.0;
pub const LOSS_HEIGHT: f64 = 8.0;

/// A tick's length.
const TICK: f64 = 4.0;
/// How far left of the marks the ticks and lanes are named, and the axis of the delays.
const NAME_GAP: f64 = 9.0;
const AXIS_NAME_GAP: f64 = 52.0;
/// The line that a name stands on is this far below the middle of what it names.
const NAME_DROP: f64 = 3.5;

/// The mark of a number is as wide as its slot, within these bounds.
const LEAST_MARK: f64 = 2.4;
pub const MOST_MARK: f64 = 5.0;
/// The least width of the line for a missing number. It is small, so that a few losses among
/// thousands of numbers look few.
const LEAST_LOSS: f64 = 1.2;
/// From the centre of a CE mark to a corner, for a mark of width 1.
const CE_RADIUS: f64 = 0.9;
/// Where blocks begin is drawn only if blocks are at least this wide on average.
const LEAST_BLOCK: f64 = 8.0;

/// How far below this panel the next one stands.
pub fn height(stream: &Stream) -> f64 {
    stream.ends().map_or(NEXT_AFTER_NONE, |_| NEXT_PANEL)
}

/// The panel. Its heading stands at 0, 0.
pub fn draw(stream: &Stream) -> String {
    let Some((first, last)) = stream.ends() else {
        return heading(stream, "no number");
    };
    let numbers = Numbers::new(first, last, WIDTH);
    let span = show::span(wrapped(first), wrapped(last), stream.numbers().count());
    let longest = stream.numbers().filter_map(|(_, metric)| delay(metric)).reduce(f64::max);
    let delays = Delays::new(longest.unwrap_or(0.0), DELAYS_BOTTOM, DELAYS_BOTTOM - DELAYS_TOP);
    let behind = match longest {
        Some(_) => bands(stream, numbers) + &delay_axis(delays),
        None => text("axis", WIDTH / 2.0, DELAYS_MIDDLE + NAME_DROP, "no arrival time offset"),
    };
    [
        heading(stream, &span),
        behind,
        lanes(),
        number_axis(numbers),
        block_begins(stream, numbers),
        losses(stream, numbers),
        arrivals(stream, numbers, delays),
    ]
    .concat()
}

fn heading(stream: &Stream, span: &str) -> String {
    let sums = show::sums(stream.numbers().map(|(_, metric)| metric));
    let words = format!("<tspan class=\"name\">stream {:08x}</tspan>, {span}{sums}", stream.ssrc());
    text("heading", 0.0, 0.0, &words)
}

/// The lines of round delays, and their names.
fn delay_axis(delays: Delays) -> String {
    let y = |delay: i64| delays.y(delay as f64);
    let lines: Vec<String> = delays.ticks().map(|delay| level(0.0, WIDTH, y(delay))).collect();
    let names = delays.ticks().map(|delay| left_name(y(delay), &delay.to_string()));
    let names: String = names.collect();
    let turn = format!("translate({} {}) rotate(-90)", px(-AXIS_NAME_GAP), px(DELAYS_MIDDLE));
    let axis = format!("<text class=\"axis\" transform=\"{turn}\">ms before RTS</text>\n");
    path("grid", HAIRLINE, &lines) + &names + &axis
}

fn number_axis(numbers: Numbers) -> String {
    let tick = |number| upright(numbers.x(number), LANES_BOTTOM, LANES_BOTTOM + TICK);
    let name =
        |number| text("number", numbers.x(number), NUMBER_NAMES, &wrapped(number).to_string());
    let ticks: Vec<String> = numbers.ticks().map(tick).collect();
    let names: String = numbers.ticks().map(name).collect();
    path("tick", HAIRLINE, &ticks)
        + &names
        + &text("axis", WIDTH / 2.0, NUMBER_AXIS_NAME, "sequence number")
}

fn lanes() -> String {
    let lanes =
        [(NO_TIME_LANE, "no time"), (OVER_RANGE_LANE, "over range"), (MISSING_LANE, "missing")];
    let lines: Vec<String> = lanes.iter().map(|(y, _)| level(0.0, WIDTH, *y)).collect();
    let names: String = lanes.iter().map(|(y, name)| left_name(*y, name)).collect();
    path("lane", LANE_HEIGHT, &lines) + &names
}

fn left_name(y: f64, name: &str) -> String {
    text("left", -NAME_GAP, y + NAME_DROP, name)
}

fn block_begins(stream: &Stream, numbers: Numbers) -> String {
    let begins = stream.begins();
    if begins.len() as f64 * LEAST_BLOCK > WIDTH {
        return String::new();
    }
    let begin = |&number: &i64| numbers.x(number) - numbers.slot() / 2.0;
    let line = |number| upright(begin(number), LANES_TOP, LANES_BOTTOM);
    path("begin", HAIRLINE, &begins.iter().map(line).collect::<Vec<_>>())
}

/// Losses behind the delays.
fn bands(stream: &Stream, numbers: Numbers) -> String {
    let height = DELAYS_BOTTOM - DELAYS_TOP;
    path("band", height, &loss_runs(stream, numbers, DELAYS_MIDDLE))
}

fn losses(stream: &Stream, numbers: Numbers) -> String {
    path("missing", LOSS_HEIGHT, &loss_runs(stream, numbers, MISSING_LANE))
}

/// A level line for each run of missing numbers.
fn loss_runs(stream: &Stream, numbers: Numbers, y: f64) -> Vec<String> {
    let half = numbers.slot().clamp(LEAST_LOSS, MOST_MARK) / 2.0;
    let line = |(first, last)| level(numbers.x(first) - half, numbers.x(last) + half, y);
    runs(stream).into_iter().map(line).collect()
}

/// The first and the last number of each run of missing numbers.
fn runs(stream: &Stream) -> Vec<(i64, i64)> {
    let mut runs: Vec<(i64, i64)> = Vec::new();
    for (number, metric) in stream.numbers() {
        match runs.last_mut() {
            _ if metric != Metric::NotReceived => {}
            Some((_, last)) if *last + 1 == number => *last = number,
            _ => runs.push((number, number)),
        }
    }
    runs
}

/// The marks of the numbers that arrived, those with CE above the others.
fn arrivals(stream: &Stream, numbers: Numbers, delays: Delays) -> String {
    let (mut dots, mut diamonds) = (Vec::new(), Vec::new());
    for (number, metric) in stream.numbers() {
        let x = numbers.x(number);
        let y = match metric {
            Metric::NotReceived => continue,
            Metric::Received { offset, .. } => delays.y(show::milliseconds(offset)),
            Metric::OverRange { .. } => OVER_RANGE_LANE,
            Metric::NoTime { .. } => NO_TIME_LANE,
        };
        match metric.mark() {
            Some(Mark::Ce) => diamonds.push(ce_mark(x, y, mark_width(numbers))),
            _ => dots.push(dot(x, y)),
        }
    }
    path("received", mark_width(numbers), &dots) + &path("ce", 0.0, &diamonds)
}

/// The mark of a number with CE, larger than the `width` of the others.
pub fn ce_mark(x: f64, y: f64, width: f64) -> String {
    diamond(x, y, CE_RADIUS * width)
}

fn mark_width(numbers: Numbers) -> f64 {
    numbers.slot().clamp(LEAST_MARK, MOST_MARK)
}

fn delay(metric: Metric) -> Option<f64> {
    match metric {
        Metric::Received { offset, .. } => Some(show::milliseconds(offset)),
        _ => None,
    }
}

#[cfg(test)]
mod tests {
    use super::*;

    const LOST: Metric = Metric::NotReceived;

    fn stream(blocks: &[(u16, &[Metric])]) -> Stream {
        let mut stream = Stream::new(0x0a01);
        for (begin, metrics) in blocks {
            stream.take(*begin, metrics.iter().copied());
        }
        stream
    }

    #[test]
    fn a_run_of_losses_ends_where_nothing_is_reported() {
        let arrived = Metric::NoTime { mark: Mark::Ect1 };
        let stream = stream(&[(65_534, &[LOST, LOST, LOST, arrived, LOST]), (9, &[LOST])]);
        assert_eq!(runs(&stream), [(65_534, 65_536), (65_538, 65_538), (65_545, 65_545)]);
    }

    #[test]
    fn numbers_without_a_delay_stand_in_lanes() {
        let panel = draw(&stream(&[(
            5,
            &[Metric::OverRange { mark: Mark::Ect0 }, Metric::NoTime { mark: Mark::Ce }, LOST],
        )]));
        let numbers = Numbers::new(5, 7, WIDTH);
        assert!(panel.contains(&dot(numbers.x(5), OVER_RANGE_LANE)));
        assert!(panel.contains(&ce_mark(numbers.x(6), NO_TIME_LANE, MOST_MARK)));
        assert!(panel.contains(&loss_line(numbers.x(7), MISSING_LANE)));
        assert!(panel.contains("no arrival time offset"));
        assert!(!panel.contains("ms before RTS"));
    }

    /// The line of a single loss at its widest.
    fn loss_line(x: f64, y: f64) -> String {
        level(x - MOST_MARK / 2.0, x + MOST_MARK / 2.0, y)
    }

    #[test]
    fn a_delay_stands_at_its_height() {
        let panel = draw(&stream(&[(5, &[Metric::Received { mark: Mark::Ce, offset: 1_024 }])]));
        assert!(panel.contains(&ce_mark(WIDTH / 2.0, DELAYS_TOP, MOST_MARK)));
        assert!(panel.contains("ms before RTS"));
    }

    #[test]
    fn a_stream_without_numbers_has_only_a_heading() {
        let empty = stream(&[(5, &[])]);
        assert_eq!(draw(&empty), heading(&empty, "no number"));
        assert_eq!(height(&empty), NEXT_AFTER_NONE);
    }

    #[test]
    fn many_blocks_are_drawn_without_their_begins() {
        let blocks = |count: u16| {
            let mut stream = Stream::new(1);
            (0..count).for_each(|begin| stream.take(begin, [LOST].into_iter()));
            draw(&stream)
        };
        assert!(blocks(98).contains("\"begin\""));
        assert!(!blocks(99).contains("\"begin\""));
    }
}
