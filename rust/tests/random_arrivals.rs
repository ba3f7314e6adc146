//! Random arrivals beside a model by full numbers, which are counted on without wrapping: what
//! each arrival was, and which are refused.

#[path = "common/random.rs"]
mod random;

use ccfb::{ArrivalKind, Mark, Refusal, StoreIn, Time, CELLS_OF_A_PLACE};
use random::Random;
use std::collections::{BTreeMap, HashMap, HashSet};

const STEPS: usize = 400_000;
const PLACES: usize = 3;
const STREAMS: u64 = 5;

/// How far an arrival may be ahead of the highest number, and how far behind it is too old.
const MOST_AHEAD: u64 = 32_767;
const TOO_OLD: u64 = 2_048;

/// The answers that [`name_of`] tells apart: five of accepted arrivals, and two refusals.
const ANSWERS: usize = 7;

/// Full numbers start here, so that none behind them is negative.
const START: u64 = 1 << 20;

/// What arrived of a stream since it took its place.
struct History {
    highest: u64,
    arrived: HashSet<u64>,
}

impl History {
    fn arrive(&mut self, number: u64) -> Result<ArrivalKind, Refusal> {
        if number + TOO_OLD <= self.highest {
            return Err(Refusal::TooOld);
        }
        let is_new = self.arrived.insert(number);
        if number > self.highest {
            let passed_over = (number - self.highest - 1) as u16;
            self.highest = number;
            return Ok(ArrivalKind::Ahead { passed_over });
        }
        Ok(if is_new { ArrivalKind::Late } else { ArrivalKind::Copy })
    }
}

#[derive(Default)]
struct Model {
    histories: HashMap<u32, History>,
}

impl Model {
    fn arrive(&mut self, ssrc: u32, number: u64) -> Result<ArrivalKind, Refusal> {
        if let Some(history) = self.histories.get_mut(&ssrc) {
            return history.arrive(number);
        }
        if self.histories.len() == PLACES {
            return Err(Refusal::NoFreePlace);
        }
        let arrived = HashSet::from([number]);
        self.histories.insert(ssrc, History { highest: number, arrived });
        Ok(ArrivalKind::First)
    }

    fn highest(&self, ssrc: u32) -> Option<u64> {
        self.histories.get(&ssrc).map(|history| history.highest)
    }
}

/// A number near the highest one, or as far from it as a number can be, or at an edge.
fn number_near(random: &mut Random, highest: u64) -> u64 {
    match random.below(100) {
        0..=39 => highest + 1,
        40..=49 => highest + random.below(10),
        50..=79 => highest - random.below(60),
        80..=91 => highest - random.below(TOO_OLD),
        92 => highest + random.below(MOST_AHEAD + 1),
        93 => highest - random.below(MOST_AHEAD + 2),
        94 => highest + TOO_OLD - 1 + random.below(3),
        95 => highest + MOST_AHEAD - random.below(2),
        96 => highest - (MOST_AHEAD + random.below(2)),
        _ => highest + 1 - TOO_OLD - random.below(2),
    }
}

/// How an answer is counted.
fn name_of(answer: Result<ArrivalKind, Refusal>) -> String {
    match answer {
        Ok(ArrivalKind::Ahead { passed_over: 0 }) => "next in order".to_string(),
        Ok(ArrivalKind::Ahead { .. }) => "ahead".to_string(),
        answer => format!("{answer:?}"),
    }
}

#[test]
fn random_arrivals() -> Result<(), Refusal> {
    let (mut places, mut cells) = (vec![0; PLACES], vec![0; PLACES * CELLS_OF_A_PLACE]);
    let mut store = StoreIn::new(&mut places, &mut cells)?;
    let (mut random, mut model) = (Random(1), Model::default());
    let (mut seen, mut most_passed_over) = (BTreeMap::<String, usize>::new(), 0);
    for _ in 0..STEPS {
        let ssrc = random.below(STREAMS) as u32;
        if random.one_in(2_000) {
            let is_held = model.histories.remove(&ssrc).is_some();
            assert_eq!(store.forget(ssrc).is_ok(), is_held);
            continue;
        }
        let highest = model.highest(ssrc).unwrap_or(START + random.below(1 << 16));
        let number = number_near(&mut random, highest);
        let answer = store.arrive(ssrc, number as u16, Mark::Ect1, Time::Unknown);
        assert_eq!(answer, model.arrive(ssrc, number), "stream {ssrc}: {number} after {highest}");
        most_passed_over = answer.map_or(0, ArrivalKind::passed_over).max(most_passed_over);
        *seen.entry(name_of(answer)).or_default() += 1;
    }
    assert_eq!(seen.len(), ANSWERS, "{seen:?}");
    assert!(seen.values().all(|times| *times > 100), "{seen:?}");
    assert_eq!(most_passed_over, ccfb::MOST_PASSED_OVER);
    Ok(())
}
