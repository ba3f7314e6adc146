//! Over a million arrivals and reports: the first report on a stream starts at its first arrival,
//! or at the oldest number that arrived if the reporter is not told of the arrivals; no later one
//! starts before it or repeats more than the overlap, no number is left out, and no request is
//! refused.

#[path = "common/random.rs"]
mod random;

use ccfb::{
    ArrivalKind, Mark, Packet, Refusal, Report, Reporter, Requests, StoreIn, Time,
    CELLS_OF_A_PLACE, LIMITS,
};
use random::Random;
use std::collections::{BTreeSet, HashMap};

const STEPS: usize = 1_000_000;
const PLACES: usize = 4;
const WINDOW: u64 = CELLS_OF_A_PLACE as u64;

/// Whether the reporter is told what each arrival was.
#[derive(Clone, Copy, PartialEq)]
enum Arrivals {
    Told,
    NotTold,
}

/// What is known of a stream since it took its place. Its numbers are counted on without wrapping.
struct History {
    highest: u64,
    arrived: BTreeSet<u64>,
    /// Its first arrival, if the reporter was told of it.
    first: Option<u64>,
    /// Where the first report began, and where the last one ended.
    reported_from: u64,
    reported_to: Option<u64>,
    /// Arrived since the last report, and no further behind it than the overlap.
    to_be_told: Vec<u64>,
}

impl History {
    fn starting_at(number: u64, arrivals: Arrivals) -> History {
        History {
            highest: number,
            arrived: BTreeSet::from([number]),
            first: (arrivals == Arrivals::Told).then_some(number),
            reported_from: 0,
            reported_to: None,
            to_be_told: vec![number],
        }
    }

    fn arrive(&mut self, number: u64, overlap: u64) {
        self.highest = self.highest.max(number);
        self.arrived.insert(number);
        let told = match self.reported_to {
            None => self.first.map_or(true, |first| first <= number),
            Some(last) => self.reported_from <= number && last < number + overlap,
        };
        if told {
            self.to_be_told.push(number);
        }
    }

    fn first_of_the_window(&self) -> u64 {
        (self.highest + 1).saturating_sub(WINDOW)
    }

    /// The number counted on, of a 16-bit one in the window.
    fn counted_on(&self, number: u16) -> u64 {
        self.highest - u64::from((self.highest as u16).wrapping_sub(number))
    }

    /// Where the next report begins, but for an overlap.
    fn next_begin(&self) -> u64 {
        let window = self.first_of_the_window();
        match (self.reported_to, self.first) {
            (None, None) => *self.arrived.range(window..).next().expect("H arrived"),
            (None, Some(first)) => window.max(first),
            (Some(last), _) => window.max(last + 1),
        }
    }

    /// The report was sent.
    fn told(&mut self) {
        if self.reported_to.is_none() {
            self.reported_from = self.next_begin();
        }
        self.reported_to = Some(self.highest);
        self.to_be_told.clear();
    }

    /// Checks the numbers of a report, each with whether it was received.
    fn check(&self, told: &[(u64, bool)], overlap: u64) {
        let begin = told.first().map_or(self.highest + 1, |first| first.0);
        let start = self.first.or(self.arrived.first().copied()).expect("H arrived");
        assert!(begin >= start, "{begin} is from before {start}");
        let repeated = self.next_begin().checked_sub(begin).expect("no number is left out");
        match self.reported_to {
            None => assert_eq!(repeated, 0),
            Some(_) => assert!(self.reported_from <= begin && repeated <= overlap),
        }
        assert!(told.last().map_or(true, |last| last.0 == self.highest));
        assert!(told.windows(2).all(|pair| pair[0].0 + 1 == pair[1].0));
        assert!(told.iter().all(|(number, received)| self.arrived.contains(number) == *received));
        for number in self.to_be_told.iter().filter(|n| **n >= self.first_of_the_window()) {
            assert!(
                told.binary_search(&(*number, true)).is_ok(),
                "{number} arrived and is not told"
            );
        }
    }
}

struct Trial<'m> {
    random: Random,
    store: StoreIn<'m>,
    reporter: Reporter,
    overlap: u16,
    arrivals: Arrivals,
    /// The next number of each stream's sender.
    next: [u64; PLACES + 2],
    histories: HashMap<u32, History>,
    seen: Seen,
}

/// How often the trial met what it is about.
#[derive(Default)]
struct Seen {
    reports: usize,
    /// First reports on a stream of which one number arrived.
    of_one_arrival: usize,
    /// First reports on a stream of which a number from before the first arrival came late.
    after_an_older_number: usize,
    /// First reports on a stream whose window has moved past the first arrival.
    past_the_first: usize,
    /// Reports on a stream whose window has moved past the last number reported.
    past_the_window: usize,
    /// Arrivals that are told by the overlap alone.
    late: usize,
}

impl Seen {
    fn count(&mut self, history: &History, told: &[(u64, bool)]) {
        let window = history.first_of_the_window();
        if let (None, Some(first)) = (history.reported_to, history.first) {
            let older = history.arrived.range(window..).next().is_some_and(|n| *n < first);
            self.after_an_older_number += usize::from(older);
            self.past_the_first += usize::from(first < window);
        }
        match history.reported_to {
            None if history.arrived.len() == 1 => {
                assert_eq!(told.len(), 1);
                self.of_one_arrival += 1;
            }
            Some(last) if last < window => self.past_the_window += 1,
            Some(last) => {
                self.late += history.to_be_told.iter().filter(|number| **number <= last).count();
            }
            None => {}
        }
    }
}

impl Trial<'_> {
    fn step(&mut self) -> Result<(), Refusal> {
        match self.random.below(3_000) {
            0..=59 => self.report(),
            60..=69 => self.forget(),
            _ => self.packet(),
        }
    }

    /// Sends a packet; it may be lost, late or a copy, or many before it may be lost.
    fn packet(&mut self) -> Result<(), Refusal> {
        let ssrc = self.random.below(self.next.len() as u64) as u32;
        let next = &mut self.next[ssrc as usize];
        *next += if self.random.one_in(500) { self.random.below(4_000) } else { 1 };
        let behind = match self.random.below(80) {
            0 => self.random.below(2_000),
            1..=10 => self.random.below(60),
            _ => 0,
        };
        let number = *next - behind;
        if self.random.one_in(10) {
            return Ok(()); // lost
        }
        match self.store.arrive(ssrc, number as u16, Mark::Ect1, Time::Unknown) {
            Err(Refusal::NoFreePlace) => assert!(!self.histories.contains_key(&ssrc)),
            refused_or_not => self.arrived(ssrc, number, refused_or_not?),
        }
        Ok(())
    }

    fn arrived(&mut self, ssrc: u32, number: u64, kind: ArrivalKind) {
        let overlap = self.overlap.into();
        let history = self.histories.entry(ssrc);
        history
            .and_modify(|history| history.arrive(number, overlap))
            .or_insert_with(|| History::starting_at(number, self.arrivals));
        if self.arrivals == Arrivals::Told {
            self.reporter.arrived(ssrc, number as u16, kind);
        }
    }

    /// Forgets a stream. The reporter is told, or sees at the next report that it is not held. If
    /// it is told of the arrivals, the stream may be back by then.
    fn forget(&mut self) -> Result<(), Refusal> {
        let ssrc = self.random.below(self.next.len() as u64) as u32;
        if self.histories.remove(&ssrc).is_none() {
            return Ok(());
        }
        self.store.forget(ssrc)?;
        if self.random.one_in(2) {
            self.reporter.forget(ssrc);
        } else if self.arrivals == Arrivals::NotTold {
            return self.report();
        }
        Ok(())
    }

    /// A report, which is sometimes written but not sent.
    fn report(&mut self) -> Result<(), Refusal> {
        let requests = self.reporter.requests(self.store.streams());
        assert_eq!(requests.len(), self.histories.len());
        let told = self.written(&requests)?;
        self.seen.reports += 1;
        for (ssrc, history) in &self.histories {
            let told = told.get(ssrc).map_or(&[] as &[_], |told| told);
            history.check(told, self.overlap.into());
            self.seen.count(history, told);
        }
        if self.random.one_in(20) {
            return Ok(());
        }
        self.reporter.reported(&requests);
        for history in self.histories.values_mut() {
            history.told();
        }
        Ok(())
    }

    /// Each stream's numbers in the packets, counted on, and whether they were received.
    fn written(&mut self, requests: &Requests) -> Result<HashMap<u32, Vec<(u64, bool)>>, Refusal> {
        let limit = LIMITS.start() + self.random.below(1_300) as usize;
        let mut out = vec![0; requests.room()];
        let mut told: HashMap<u32, Vec<(u64, bool)>> = HashMap::new();
        for octets in self.store.write(Report { own: 1, rts: 2, limit }, requests, &mut out)? {
            for block in Packet::read(octets)?.blocks() {
                let history = &self.histories[&block.ssrc()];
                let of_stream = told.entry(block.ssrc()).or_default();
                of_stream.extend(
                    block.metrics().map(|(number, metric)| {
                        (history.counted_on(number), metric.mark().is_some())
                    }),
                );
            }
        }
        Ok(told)
    }
}

fn trial(seed: u64, overlap: u16, arrivals: Arrivals, steps: usize) -> Result<Seen, Refusal> {
    let (mut places, mut cells) = (vec![0; PLACES], vec![0; PLACES * CELLS_OF_A_PLACE]);
    let mut random = Random(seed);
    let next = [0; PLACES + 2].map(|_: u64| 65_536 + random.below(65_536));
    let mut trial = Trial {
        random,
        store: StoreIn::new(&mut places, &mut cells)?,
        reporter: Reporter::new(overlap),
        overlap,
        arrivals,
        next,
        histories: HashMap::new(),
        seen: Seen::default(),
    };
    for _ in 0..steps {
        trial.step()?;
    }
    let Seen { reports, of_one_arrival, past_the_window, late, .. } = trial.seen;
    assert!(reports > steps / 100 && of_one_arrival > 0 && past_the_window > 0);
    assert!(late > reports || overlap == 0);
    Ok(trial.seen)
}

#[test]
fn random_arrivals_that_the_reporter_is_not_told_of() -> Result<(), Refusal> {
    trial(1, 0, Arrivals::NotTold, STEPS * 5 / 10)?;
    trial(2, 20, Arrivals::NotTold, STEPS * 4 / 10)?;
    trial(3, u16::MAX, Arrivals::NotTold, STEPS / 10)?;
    Ok(())
}

#[test]
fn random_arrivals_that_the_reporter_is_told_of() -> Result<(), Refusal> {
    let trials = [(4, 0, STEPS * 4 / 10), (5, 20, STEPS * 3 / 10), (6, u16::MAX, STEPS / 20)];
    let (mut after_an_older_number, mut past_the_first) = (0, 0);
    for (seed, overlap, steps) in trials {
        let seen = trial(seed, overlap, Arrivals::Told, steps)?;
        after_an_older_number += seen.after_an_older_number;
        past_the_first += seen.past_the_first;
    }
    assert!(after_an_older_number > 100, "{after_an_older_number}");
    assert!(past_the_first > 5, "{past_the_first}");
    Ok(())
}
