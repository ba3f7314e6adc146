//! Times of the system as NTP times, beside a count over wide integers.

#![cfg(feature = "std")]

use ccfb::{ntp_time, ntp_time_from_unix, Time};
use std::time::{Duration, UNIX_EPOCH};

const NANOSECONDS_OF_A_SECOND: i128 = 1_000_000_000;

/// Of a time in nanoseconds since 1970, before or after.
fn counted(nanoseconds: i128) -> u32 {
    let since_1900 = nanoseconds + 2_208_988_800 * NANOSECONDS_OF_A_SECOND;
    ((since_1900 * 65_536).div_euclid(NANOSECONDS_OF_A_SECOND)).rem_euclid(1 << 32) as u32
}

fn check(seconds: u64, nanoseconds: u32) {
    let distance = Duration::new(seconds, nanoseconds);
    let total = distance.as_nanos() as i128;
    for (time, total) in [(UNIX_EPOCH + distance, total), (UNIX_EPOCH - distance, -total)] {
        assert_eq!(ntp_time(time), counted(total));
        assert_eq!(Time::from(time), Time::At(counted(total)));
        let seconds = total.div_euclid(NANOSECONDS_OF_A_SECOND) as i64;
        let part = total.rem_euclid(NANOSECONDS_OF_A_SECOND) as u32;
        assert_eq!(ntp_time_from_unix(seconds, part), counted(total));
        assert_eq!(Time::from_unix(seconds, part), Time::At(counted(total)));
    }
}

#[test]
fn before_and_after_1970() {
    // 2_085_978_496 s after 1970 the NTP seconds are 2^32.
    let edges = [0, 1, 33_151, 33_152, 65_535, 1_767_225_600, 2_085_978_495, 2_085_978_496];
    for seconds in edges.into_iter().chain((0..4_000_000_000_u64).step_by(7_654_321)) {
        for part in [0, 1, 15_258, 15_259, 499_999_999, 500_000_000, 999_984_741, 999_999_999] {
            check(seconds, part);
        }
    }
}

#[test]
fn nanoseconds_of_more_than_a_second_are_carried_over() {
    assert_eq!(ntp_time_from_unix(5, u32::MAX), ntp_time_from_unix(9, 294_967_295));
    assert_eq!(ntp_time_from_unix(-1, 1_000_000_000), ntp_time_from_unix(0, 0));
}

#[test]
fn seconds_of_any_size_are_taken_modulo_65536() {
    assert_eq!(ntp_time_from_unix(i64::MIN, 7), ntp_time_from_unix(0, 7));
    assert_eq!(ntp_time_from_unix(i64::MAX, 7), ntp_time_from_unix(-1, 7));
}
