//! Arrivals, and the oldest number of a stream; a step is an arrival, or a question for it.

use super::{row, Row};
use crate::baseline::store::BASELINE;
use crate::calls::store::{CcfbArrival, StoreCalls, Words};
use crate::rng::{Rng, USUAL_SEED};
use crate::store::{CELLS_OF_A_PLACE, MOST_PLACES};

const ARRIVALS: usize = 65_536;

const QUESTIONS: usize = 1_000;

const MARKS: u64 = 4;

#[derive(Clone, Copy)]
struct Arrival {
    ssrc: u32,
    number: u16,
    mark: u8,
}

impl Arrival {
    /// One whose mark follows from its number, so that all copies of it have the same mark.
    fn new(ssrc: usize, number: usize) -> Arrival {
        Arrival { ssrc: ssrc as u32, number: number as u16, mark: number as u8 % MARKS as u8 }
    }
}

pub fn rows() -> Vec<Row> {
    let one_stream = |number: fn(usize) -> usize| -> Vec<Arrival> {
        (0..ARRIVALS).map(|i| Arrival::new(0x1234_5678, number(i))).collect()
    };
    let in_order = one_stream(|i| i);
    let in_turn: Vec<Arrival> =
        (0..ARRIVALS).map(|i| Arrival::new(i % MOST_PLACES, i / MOST_PLACES)).collect();
    let mut rng = Rng::of_case(USUAL_SEED, 0);
    let mut twice = one_stream(|i| i / 2);
    twice.iter_mut().for_each(|arrival| arrival.mark = rng.below(MARKS) as u8);
    vec![
        arrivals("arrival in order, 1 stream", 1, 0, &in_order),
        arrivals("the same, a million came before", 1, 1_000_000 / ARRIVALS, &in_order),
        arrivals("arrival in order, 16 streams in turn", MOST_PLACES, 0, &in_turn),
        arrivals("one copy in ten", 1, 0, &one_stream(|i| i - i / 10)),
        arrivals("each number twice, random marks", 1, 0, &twice),
        arrivals("loss of 64 in every thousand", 1, 0, &one_stream(|i| i + i / 936 * 64)),
        arrivals("a jump of 2,048 each", 1, 0, &one_stream(|i| CELLS_OF_A_PLACE * i)),
        oldest("oldest of a stream that just started", &in_order[..1]),
    ]
}

/// Takes the arrivals `rounds_before` times unmeasured, and then once measured.
fn arrivals(name: &str, places: usize, rounds_before: usize, arrivals: &[Arrival]) -> Row {
    let prepare = |calls| {
        let mut words = Words::fresh(places);
        for _ in 0..rounds_before {
            take(calls, &mut words, arrivals);
        }
        words
    };
    row(name, (StoreCalls::product(), BASELINE), arrivals.len(), prepare, |calls, words| {
        take(calls, words, arrivals);
    })
}

fn take(calls: StoreCalls, words: &mut Words, arrivals: &[Arrival]) {
    let Words { places, cells } = words;
    let (places, places_len) = (places.as_mut_ptr(), places.len());
    let (cells, cells_len) = (cells.as_mut_ptr(), cells.len());
    let mut time = 0u32;
    let mut arrival = CcfbArrival::default();
    for &Arrival { ssrc, number, mark } in arrivals {
        time = time.wrapping_add(65);
        let out = &mut arrival;
        // SAFETY: each pointer is passed with the length of its slice; the last is to a local.
        let refused = unsafe {
            (calls.arrive)(
                places, places_len, cells, cells_len, ssrc, number, mark, true, time, out,
            )
        };
        assert_eq!(refused, 0);
    }
}

/// Asks for the oldest number of one stream, after its arrivals.
fn oldest(name: &str, arrivals: &[Arrival]) -> Row {
    let prepare = |calls| {
        let mut words = Words::fresh(1);
        take(calls, &mut words, arrivals);
        words
    };
    row(name, (StoreCalls::product(), BASELINE), QUESTIONS, prepare, |calls, words| {
        for _ in 0..QUESTIONS {
            assert_eq!(calls.oldest(words, 0), Ok(arrivals[0].number));
        }
    })
}
