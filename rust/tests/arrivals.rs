//! What an accepted arrival was, at the edges of each kind.

#![cfg(feature = "alloc")]

use ccfb::{ArrivalKind, Mark, Refusal, Store, Time, MOST_PASSED_OVER};

const FIRST: Result<ArrivalKind, Refusal> = Ok(ArrivalKind::First);
const LATE: Result<ArrivalKind, Refusal> = Ok(ArrivalKind::Late);
const COPY: Result<ArrivalKind, Refusal> = Ok(ArrivalKind::Copy);
const TOO_OLD: Result<ArrivalKind, Refusal> = Err(Refusal::TooOld);
const NO_FREE_PLACE: Result<ArrivalKind, Refusal> = Err(Refusal::NoFreePlace);

fn ahead(passed_over: u16) -> Result<ArrivalKind, Refusal> {
    Ok(ArrivalKind::Ahead { passed_over })
}

/// The answers to arrivals of stream 7, one after the other, at a fresh store.
fn check(arrivals: &[(u16, Result<ArrivalKind, Refusal>)]) {
    let mut store = Store::<1>::new();
    for (at, (number, answer)) in arrivals.iter().enumerate() {
        let answered = store.arrive(7, *number, Mark::Ect1, Time::Unknown);
        assert_eq!(answered, *answer, "arrival {at} of {arrivals:?}");
    }
}

#[test]
fn one_after_the_other() {
    for first in [0, 1, 100, 32_767, 32_768, 65_533, 65_535_u16] {
        let after = |n| first.wrapping_add(n);
        check(&[
            (first, FIRST),
            (first, COPY),
            (after(1), ahead(0)),
            (after(4), ahead(2)),
            (after(2), LATE),
            (after(2), COPY),
            (after(3), LATE),
            (after(4), COPY),
            (after(5), ahead(0)),
            (first, COPY),
        ]);
    }
}

#[test]
fn a_jump_passes_over_at_most_32_766() {
    assert_eq!(MOST_PASSED_OVER, 32_766);
    for first in [0, 5_000, 40_000, 65_535_u16] {
        let after = |n| first.wrapping_add(n);
        for jump in [1, 2, 2_047, 2_048, 2_049, 32_766, 32_767] {
            check(&[(first, FIRST), (after(jump), ahead(jump - 1)), (after(jump), COPY)]);
        }
        check(&[(first, FIRST), (after(32_768), TOO_OLD), (after(32_769), TOO_OLD)]);
    }
}

#[test]
fn late_is_in_the_window_and_behind_the_highest() {
    for first in [0, 2_047, 5_000, 65_535_u16] {
        let before = |n| first.wrapping_sub(n);
        for behind in [1, 2, 2_046, 2_047] {
            check(&[(first, FIRST), (before(behind), LATE), (before(behind), COPY)]);
        }
        check(&[(first, FIRST), (before(2_048), TOO_OLD), (before(2_049), TOO_OLD)]);
    }
}

/// A number shares its cell with the one 2,048 before it.
#[test]
fn what_has_left_the_window_makes_no_copy() {
    check(&[(100, FIRST), (2_147, ahead(2_046)), (100, COPY), (2_148, ahead(0)), (100, TOO_OLD)]);
    check(&[(100, FIRST), (2_148, ahead(2_047)), (2_148, COPY)]);
    check(&[(100, FIRST), (2_149, ahead(2_048)), (2_148, LATE), (2_148, COPY)]);
    check(&[(100, FIRST), (4_197, ahead(4_096)), (4_196, LATE), (4_196, COPY)]);
}

#[test]
fn mark_and_time_make_no_difference() -> Result<(), Refusal> {
    let mut store = Store::<1>::new();
    store.arrive(7, 100, Mark::Ect1, Time::Unknown)?;
    for (mark, time) in [(Mark::Ce, Time::Unknown), (Mark::NotEct, Time::At(5))] {
        assert_eq!(store.arrive(7, 100, mark, time), COPY);
    }
    Ok(())
}

#[test]
fn after_it_was_forgotten_a_stream_is_new() -> Result<(), Refusal> {
    for back in [100, 101, 99, 40_000] {
        let mut store = Store::<2>::new();
        store.arrive(7, 100, Mark::Ect1, Time::Unknown)?;
        store.arrive(7, 103, Mark::Ect1, Time::Unknown)?;
        store.forget(7)?;
        assert_eq!(store.arrive(7, back, Mark::Ect1, Time::Unknown), FIRST);
        assert_eq!(store.arrive(7, back.wrapping_add(3), Mark::Ect1, Time::Unknown), ahead(2));
        assert_eq!(store.arrive(7, back.wrapping_add(1), Mark::Ect1, Time::Unknown), LATE);
    }
    Ok(())
}

#[test]
fn after_it_was_forgotten_a_duplicate_from_before_is_no_copy() -> Result<(), Refusal> {
    let mut store = Store::<1>::new();
    for number in [100, 101] {
        store.arrive(7, number, Mark::Ect1, Time::Unknown)?;
    }
    store.forget(7)?;
    for (number, answer) in [(101, FIRST), (100, LATE), (100, COPY)] {
        assert_eq!(store.arrive(7, number, Mark::Ect1, Time::Unknown), answer);
    }
    Ok(())
}

#[test]
fn a_refused_arrival_leaves_the_next_as_it_was() {
    check(&[(100, FIRST), (50_000, TOO_OLD), (50_000, TOO_OLD), (101, ahead(0)), (103, ahead(1))]);
    let mut store = Store::<1>::new();
    let mut arrive = |ssrc, number| store.arrive(ssrc, number, Mark::Ect1, Time::Unknown);
    assert_eq!(arrive(7, 100), FIRST);
    assert_eq!(arrive(8, 100), NO_FREE_PLACE);
    assert_eq!(arrive(8, 103), NO_FREE_PLACE);
    assert_eq!(arrive(7, 102), ahead(1));
    assert_eq!(store.forget(7), Ok(()));
    assert_eq!(store.arrive(8, 103, Mark::Ect1, Time::Unknown), FIRST);
}
