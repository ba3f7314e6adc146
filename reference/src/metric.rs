//! The 16-bit metric: ages as exact fractions of a second, fields as a string of bits.

use crate::calls::metric as kinds;
use crate::refusal::Refusal;
use std::cmp::Ordering;

/// ECN-CE, the highest mark.
pub const CE: u8 = 3;

/// The mark of an arrival, and its time unless that is unknown. A filled cell holds the same.
#[derive(Clone, Copy, Debug, PartialEq, Eq)]
pub struct Arrived {
    pub mark: u8,
    pub time: Option<u32>,
}

/// A metric that is read back, of four kinds.
#[derive(Clone, Copy, Debug, PartialEq, Eq)]
pub enum Metric {
    NotReceived,
    Received { mark: u8, offset: u16 },
    OverRange { mark: u8 },
    NoTime { mark: u8 },
}

/// `over / under` seconds.
#[derive(Clone, Copy)]
struct Seconds {
    over: i128,
    under: i128,
}

/// A time counts 1/65536 s, an offset 1/1024 s.
const TIMES_IN_A_SECOND: i128 = 65_536;
const OFFSETS_IN_A_SECOND: i128 = 1_024;

/// Times wrap around after 65,536 s; an age of half of that or more counts as after RTS.
const TIME_ROUND: Seconds = Seconds { over: 65_536, under: 1 };
const HALF_TIME_ROUND: Seconds = Seconds { over: 32_768, under: 1 };
/// The longest age that has an offset.
const RANGE: Seconds = Seconds { over: 8_189, under: OFFSETS_IN_A_SECOND };

/// The 13 bits of an offset that is none.
const NO_TIME: &str = "1111111111111";
const OVER_RANGE: &str = "1111111111110";

impl Seconds {
    fn of(time: u32) -> Seconds {
        Seconds { over: i128::from(time), under: TIMES_IN_A_SECOND }
    }

    /// From `earlier` up to `self`, on a clock that wraps around.
    fn since(self, earlier: Seconds) -> Seconds {
        let over = self.over * earlier.under - earlier.over * self.under;
        let under = self.under * earlier.under;
        let round = if over < 0 { TIME_ROUND.over * under / TIME_ROUND.under } else { 0 };
        Seconds { over: over + round, under }
    }

    fn compare(self, other: Seconds) -> Ordering {
        (self.over * other.under).cmp(&(other.over * self.under))
    }

    /// Whole 1/1024 s in it.
    fn offset(self) -> i128 {
        (self.over * OFFSETS_IN_A_SECOND).div_euclid(self.under)
    }
}

/// The 13 bits of the arrival time offset.
fn offset_bits(time: Option<u32>, rts: u32) -> String {
    let Some(time) = time else {
        return NO_TIME.to_string();
    };
    let age = Seconds::of(rts).since(Seconds::of(time));
    if age.compare(HALF_TIME_ROUND) != Ordering::Less {
        NO_TIME.to_string()
    } else if age.compare(RANGE) == Ordering::Greater {
        OVER_RANGE.to_string()
    } else {
        format!("{:013b}", age.offset())
    }
}

/// The metric of a cell, empty or filled, at `rts`.
pub fn encode(cell: Option<Arrived>, rts: u32) -> Result<u16, Refusal> {
    let Some(Arrived { mark, time }) = cell else {
        return Ok(0);
    };
    let mark = match mark {
        0 => "00",
        1 => "01",
        2 => "10",
        3 => "11",
        _ => return Err(Refusal::BadMark),
    };
    let bits = format!("1{mark}{}", offset_bits(time, rts));
    Ok(u16::from_str_radix(&bits, 2).expect("sixteen bits"))
}

/// What a metric says.
pub fn decode(metric: u16) -> Metric {
    let bits = format!("{metric:016b}");
    if bits.starts_with('0') {
        return Metric::NotReceived;
    }
    let mark = match &bits[1..3] {
        "00" => 0,
        "01" => 1,
        "10" => 2,
        _ => 3,
    };
    match &bits[3..] {
        NO_TIME => Metric::NoTime { mark },
        OVER_RANGE => Metric::OverRange { mark },
        offset => {
            let offset = u16::from_str_radix(offset, 2).expect("thirteen bits");
            Metric::Received { mark, offset }
        }
    }
}

/// A metric as three numbers: its kind, its mark and its offset, 0 where it has none.
pub fn numbers(metric: u16) -> (u8, u8, u16) {
    match decode(metric) {
        Metric::NotReceived => (kinds::NOT_RECEIVED, 0, 0),
        Metric::Received { mark, offset } => (kinds::RECEIVED, mark, offset),
        Metric::OverRange { mark } => (kinds::OVER_RANGE, mark, 0),
        Metric::NoTime { mark } => (kinds::NO_TIME, mark, 0),
    }
}

/// The numbers of each metric of a part, two octets each; `rooms` are how many entries the three
/// arrays have that take them.
pub fn decode_part(part: &[u8], rooms: [usize; 3]) -> Result<Vec<(u8, u8, u16)>, Refusal> {
    let mut metrics = Vec::new();
    let mut octets = part.iter();
    while let (Some(high), Some(low)) = (octets.next(), octets.next()) {
        metrics.push(numbers(u16::from(*high) * 256 + u16::from(*low)));
    }
    if rooms.iter().any(|room| *room < metrics.len()) {
        return Err(Refusal::OutputTooShort);
    }
    Ok(metrics)
}

#[cfg(test)]
mod tests {
    use super::*;

    fn offset_of_age(age: u32) -> u16 {
        let rts = 0x0005_0000;
        let time = Some(u32::wrapping_sub(rts, age));
        encode(Some(Arrived { mark: 0, time }), rts).unwrap() - 0x8000
    }

    #[test]
    fn ages_at_the_edges() {
        for (age, offset) in [
            (0, 0),
            (63, 0),
            (64, 1),
            (524_096, 0x1FFD),
            (524_097, 0x1FFE),
            (0x7FFF_FFFF, 0x1FFE),
            (0x8000_0000, 0x1FFF),
            (0xFFFF_FFFF, 0x1FFF),
        ] {
            assert_eq!(offset_of_age(age), offset, "age {age}");
        }
    }

    #[test]
    fn marks_and_empty_cells() {
        let rts = 7;
        let unknown = |mark| encode(Some(Arrived { mark, time: None }), rts);
        assert_eq!(encode(None, rts), Ok(0x0000));
        assert_eq!(unknown(0), Ok(0x9FFF));
        assert_eq!(unknown(1), Ok(0xBFFF));
        assert_eq!(unknown(2), Ok(0xDFFF));
        assert_eq!(unknown(3), Ok(0xFFFF));
        assert_eq!(unknown(4), Err(Refusal::BadMark));
    }

    #[test]
    fn a_part_of_five_octets() {
        let part = [0x7F, 0xFF, 0xBF, 0xFD, 0xFF];
        let metrics = vec![(0, 0, 0), (1, 1, 8189)];
        assert_eq!(decode_part(&part, [2, 2, 2]), Ok(metrics));
        for rooms in [[1, 2, 2], [2, 1, 2], [2, 2, 1]] {
            assert_eq!(decode_part(&part, rooms), Err(Refusal::OutputTooShort));
        }
        assert_eq!(decode_part(&part[..1], [0, 0, 0]), Ok(vec![]));
    }

    #[test]
    fn reading_back_at_the_edges() {
        assert_eq!(decode(0x7FFF), Metric::NotReceived);
        assert_eq!(decode(0xBFFD), Metric::Received { mark: 1, offset: 8189 });
        assert_eq!(decode(0xFFFE), Metric::OverRange { mark: 3 });
        assert_eq!(decode(0xFFFF), Metric::NoTime { mark: 3 });
        assert_eq!(numbers(0x7FFF), (0, 0, 0));
        assert_eq!(numbers(0xBFFD), (1, 1, 8189));
        assert_eq!(numbers(0xFFFE), (2, 3, 0));
        assert_eq!(numbers(0xDFFF), (3, 2, 0));
    }
}
