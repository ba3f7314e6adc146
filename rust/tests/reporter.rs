//! The requests that a reporter makes.

use ccfb::{ArrivalKind, Mark, Refusal, Reporter, Request, StoreIn, Stream, Time};
use ccfb::{CELLS_OF_A_PLACE, MOST_REQUESTS};

const SSRC: u32 = 7;
const WINDOW: u16 = CELLS_OF_A_PLACE as u16;
/// First arrivals that a reporter remembers between two reports.
const REMEMBERED: u32 = MOST_REQUESTS as u32;

/// A store of one place, and a reporter that is told of its arrivals, but not of what it forgets.
struct Receiver<'m> {
    store: StoreIn<'m>,
    reporter: Reporter,
}

impl Receiver<'_> {
    fn arrive(&mut self, numbers: &[u16]) -> Result<(), Refusal> {
        for number in numbers {
            let kind = self.store.arrive(SSRC, *number, Mark::Ect1, Time::Unknown)?;
            self.reporter.arrived(SSRC, *number, kind);
        }
        Ok(())
    }

    /// A report that is sent: its first number, and how many it has.
    fn report(&mut self) -> (u16, u16) {
        let requests = self.reporter.requests(self.store.streams());
        self.reporter.reported(&requests);
        (requests[0].begin, requests[0].count)
    }
}

fn with_receiver<T>(
    overlap: u16,
    test: impl FnOnce(Receiver) -> Result<T, Refusal>,
) -> Result<T, Refusal> {
    let (mut places, mut cells) = ([0], [0; CELLS_OF_A_PLACE]);
    let store = StoreIn::new(&mut places, &mut cells)?;
    test(Receiver { store, reporter: Reporter::new(overlap) })
}

/// The first report after these arrivals.
fn first_report(numbers: &[u16]) -> Result<(u16, u16), Refusal> {
    with_receiver(16, |mut receiver| {
        receiver.arrive(numbers)?;
        Ok(receiver.report())
    })
}

/// A stream of which 100 was the first to arrive, and then 97.
fn stream_100_then_97(ssrc: u32) -> Stream {
    Stream { ssrc, highest: 100, oldest: 97 }
}

fn begins(requests: &[Request]) -> Vec<u16> {
    requests.iter().map(|request| request.begin).collect()
}

#[test]
fn one_arrival_is_reported_as_one_number() {
    let stream = Stream { ssrc: 7, highest: 100, oldest: 100 };
    let requests = Reporter::new(16).requests([stream]);
    assert_eq!((requests[0].begin, requests[0].count), (100, 1));
}

#[test]
fn nothing_new_is_an_empty_block_which_changes_nothing() {
    let stream = Stream { ssrc: 7, highest: 100, oldest: 90 };
    let mut reporter = Reporter::new(0);
    let requests = reporter.requests([stream]);
    reporter.reported(&requests);
    for _ in 0..2 {
        let requests = reporter.requests([stream]);
        assert_eq!((requests.len(), requests[0].begin, requests[0].count), (1, 100, 0));
        reporter.reported(&requests);
    }
    let requests = reporter.requests([Stream { highest: 102, ..stream }]);
    assert_eq!((requests[0].begin, requests[0].count), (101, 2));
}

#[test]
fn a_stream_that_came_back_is_new_even_if_the_reporter_was_not_told() {
    let reported = Stream { ssrc: 7, highest: 1_000, oldest: 900 };
    for highest in [1_001, 1_100, 3_047, 999, 40_000] {
        let mut reporter = Reporter::new(16);
        let requests = reporter.requests([reported]);
        reporter.reported(&requests);
        let back = Stream { ssrc: 7, highest, oldest: highest };
        assert_eq!(*reporter.requests([back]), [back.all()]);
    }
}

#[test]
fn sixteen_streams_are_remembered_and_no_stream_is_asked_for_twice() {
    let stream = |ssrc| Stream { ssrc, highest: 100, oldest: 90 };
    let mut reporter = Reporter::new(0);
    for first in [0, 8, 16] {
        let requests = reporter.requests((first..first + 16).chain(first..first + 16).map(stream));
        assert!(requests.iter().map(|request| request.ssrc).eq(first..first + 16));
        reporter.reported(&requests);
    }
    assert!(reporter.requests((16..32).map(stream)).iter().all(|request| request.count == 0));
}

#[test]
fn the_first_report_starts_at_the_first_arrival() -> Result<(), Refusal> {
    assert_eq!(first_report(&[100])?, (100, 1));
    assert_eq!(first_report(&[100, 97])?, (100, 1));
    assert_eq!(first_report(&[100, 97, 102])?, (100, 3));
    assert_eq!(first_report(&[100, 103, 97, 97, 98, 101])?, (100, 4));
    Ok(())
}

#[test]
fn the_first_report_starts_at_the_first_arrival_across_the_wrap() -> Result<(), Refusal> {
    assert_eq!(first_report(&[65_535, 65_533, 1])?, (65_535, 3));
    assert_eq!(first_report(&[0, 65_533])?, (0, 1));
    assert_eq!(first_report(&[0, 65_533, 2])?, (0, 3));
    Ok(())
}

#[test]
fn a_start_that_the_window_has_moved_past_is_its_lowest_number() -> Result<(), Refusal> {
    assert_eq!(first_report(&[100, 97, 100 + WINDOW - 1])?, (100, WINDOW));
    assert_eq!(first_report(&[100, 97, 100 + WINDOW])?, (101, WINDOW));
    assert_eq!(first_report(&[100, 97, 32_866])?, (32_866 - WINDOW + 1, WINDOW));
    // 32,768 numbers are new: the oldest that arrived.
    assert_eq!(first_report(&[100, 97, 32_867])?, (32_867, 1));
    assert_eq!(first_report(&[100, 30_000, 60_000, 60_002])?, (60_000, 3));
    // 65,536 look like none.
    assert_eq!(first_report(&[100, 32_867, 98, 99])?, (99, 0));
    Ok(())
}

#[test]
fn no_later_report_reaches_back_before_the_first_arrival() -> Result<(), Refusal> {
    with_receiver(u16::MAX, |mut receiver| {
        receiver.arrive(&[100])?;
        assert_eq!(receiver.report(), (100, 1));
        receiver.arrive(&[97, 101])?;
        assert_eq!(receiver.report(), (100, 2));
        receiver.arrive(&[99, 98])?;
        assert_eq!(receiver.report(), (100, 2));
        Ok(())
    })
}

#[test]
fn a_later_report_has_what_is_new_and_the_overlap() -> Result<(), Refusal> {
    for (overlap, begin) in [(0, 103), (2, 101)] {
        with_receiver(overlap, |mut receiver| {
            receiver.arrive(&[100, 97, 102])?;
            assert_eq!(receiver.report(), (100, 3));
            receiver.arrive(&[104])?;
            assert_eq!(receiver.report(), (begin, 105 - begin));
            Ok(())
        })?;
    }
    Ok(())
}

#[test]
fn a_report_that_was_not_sent_leaves_the_start() -> Result<(), Refusal> {
    with_receiver(16, |mut receiver| {
        receiver.arrive(&[100, 97])?;
        receiver.reporter.requests(receiver.store.streams());
        receiver.arrive(&[101, 98])?;
        assert_eq!(receiver.report(), (100, 2));
        Ok(())
    })
}

#[test]
fn a_stream_that_came_back_starts_at_its_new_first_arrival() -> Result<(), Refusal> {
    for back in [1_001, 1_002, 1_100, 3_047, 3_048, 5_000, 40_000, 990, 1_000] {
        with_receiver(16, |mut receiver| {
            receiver.arrive(&[900, 1_000])?;
            receiver.report();
            receiver.store.forget(SSRC)?;
            receiver.arrive(&[back, back - 3])?;
            assert_eq!(receiver.report(), (back, 1));
            Ok(())
        })?;
    }
    Ok(())
}

#[test]
fn a_stream_that_came_back_before_the_report_was_sent_starts_anew() -> Result<(), Refusal> {
    with_receiver(16, |mut receiver| {
        receiver.arrive(&[900, 1_000])?;
        let requests = receiver.reporter.requests(receiver.store.streams());
        receiver.store.forget(SSRC)?;
        receiver.arrive(&[5_000, 4_997])?;
        receiver.reporter.reported(&requests);
        assert_eq!(receiver.report(), (5_000, 1));
        Ok(())
    })
}

#[test]
fn without_its_first_arrival_a_stream_starts_at_the_oldest_number() {
    let mut reporter = Reporter::new(16);
    assert_eq!(begins(&reporter.clone().requests([stream_100_then_97(SSRC)])), [97]);
    for kind in [ArrivalKind::Ahead { passed_over: 0 }, ArrivalKind::Late, ArrivalKind::Copy] {
        reporter.arrived(SSRC, 100, kind);
    }
    reporter.arrived(SSRC + 1, 100, ArrivalKind::First);
    assert_eq!(begins(&reporter.requests([stream_100_then_97(SSRC)])), [97]);
}

#[test]
fn sixteen_first_arrivals_are_remembered_beside_sixteen_reported_streams() {
    let mut reporter = Reporter::new(0);
    for first in [0, 8, 24] {
        let ssrcs = first..first + REMEMBERED;
        ssrcs.clone().for_each(|ssrc| reporter.arrived(ssrc, 100, ArrivalKind::First));
        let requests = reporter.requests(ssrcs.map(stream_100_then_97));
        assert_eq!(begins(&requests), [100; MOST_REQUESTS]);
        reporter.reported(&requests);
    }
}

#[test]
fn the_seventeenth_first_arrival_takes_the_place_of_the_earliest() {
    let mut reporter = Reporter::new(0);
    let requests = reporter.requests([Stream { ssrc: 0, highest: 60_000, oldest: 59_990 }]);
    reporter.reported(&requests);
    (0..=REMEMBERED).for_each(|ssrc| reporter.arrived(ssrc, 100, ArrivalKind::First));
    let earliest = reporter.clone().requests([stream_100_then_97(0)]);
    assert_eq!(*earliest, [stream_100_then_97(0).all()]);
    let others = reporter.requests((1..=REMEMBERED).map(stream_100_then_97));
    assert_eq!(begins(&others), [100; MOST_REQUESTS]);
}

#[test]
fn a_first_arrival_told_again_takes_no_second_place() {
    let mut reporter = Reporter::new(0);
    for number in [50, 100] {
        (0..REMEMBERED).for_each(|ssrc| reporter.arrived(ssrc, number, ArrivalKind::First));
    }
    let requests = reporter.requests((0..REMEMBERED).map(stream_100_then_97));
    assert_eq!(begins(&requests), [100; MOST_REQUESTS]);
}

#[test]
fn what_is_forgotten_takes_no_room() {
    let mut reporter = Reporter::new(0);
    for ssrc in 0..10 * REMEMBERED {
        reporter.arrived(ssrc, 100, ArrivalKind::First);
        if ssrc != 0 {
            reporter.forget(ssrc);
        }
    }
    assert_eq!(begins(&reporter.requests([stream_100_then_97(0)])), [100]);
}
