//! The ranges of a stream, beside what they are said to be.

use ccfb::{Request, Stream};

const WINDOW: u16 = 2_048;

/// Distances behind H that are at or beside an edge.
const BEHIND: [u16; 14] =
    [0, 1, 2, 15, 63, 64, 65, 2_046, 2_047, 2_048, 2_049, 32_766, 32_767, 65_535];

const HIGHEST: [u16; 5] = [0, 1, 2_047, 40_000, 65_535];

/// Each stream of which the oldest number is at such a distance.
fn streams() -> impl Iterator<Item = (Stream, u16)> {
    let known = BEHIND.into_iter().filter(|behind| *behind < WINDOW).map(|behind| behind + 1);
    known.flat_map(|known| {
        HIGHEST.map(|highest| {
            (Stream { ssrc: 7, highest, oldest: highest.wrapping_sub(known - 1) }, known)
        })
    })
}

/// The request for so many numbers up to H.
fn up_to(highest: u16, count: u16) -> Request {
    Request { ssrc: 7, begin: highest.wrapping_sub(count.saturating_sub(1)), count }
}

#[test]
fn newest_is_never_from_before_the_oldest() {
    for (stream, known) in streams() {
        for count in BEHIND {
            assert_eq!(stream.newest(count), up_to(stream.highest, count.min(known)));
        }
        assert_eq!(stream.all(), up_to(stream.highest, known));
    }
}

#[test]
fn since_has_the_fresh_numbers_and_the_overlap() {
    for (stream, known) in streams() {
        for fresh in BEHIND.into_iter().filter(|fresh| *fresh < 32_768) {
            let last = stream.highest.wrapping_sub(fresh);
            let count = if fresh >= known && fresh < WINDOW { known } else { fresh.min(WINDOW) };
            assert_eq!(stream.since(last), up_to(stream.highest, count));
            for overlap in BEHIND {
                let most = u32::from(known).min(u32::from(count) + u32::from(overlap));
                let count = count.max(most as u16);
                let request = stream.since_with_overlap(last, overlap);
                assert_eq!(request, up_to(stream.highest, count));
            }
        }
    }
}

#[test]
fn a_last_number_ahead_of_the_highest_is_of_another_history() {
    for (stream, _) in streams() {
        for ahead in [1, 2, 2_048, 32_767, 32_768] {
            let last = stream.highest.wrapping_add(ahead);
            assert_eq!(stream.since(last), stream.all());
            assert_eq!(stream.since_with_overlap(last, 5), stream.all());
        }
    }
}

#[test]
fn a_stream_made_by_hand_asks_for_no_more_than_a_window() {
    let stream = Stream { ssrc: 7, highest: 0, oldest: 1 };
    assert_eq!(stream.all(), up_to(0, WINDOW));
    assert_eq!(stream.newest(u16::MAX), up_to(0, WINDOW));
}
