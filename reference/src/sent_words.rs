//! How the product's store of a sender reads, whatever its words are.
//!
//! Places and cells lie as those of the store of arrivals do (see `lent`). A cell's word stores
//! what is known of its number:
//!
//!     word % 4             0 not registered, 1 not reported yet, 2 missing, 3 received
//!     word / 2^16 % 2^15   if received: the metric without R, its highest bit
//!     word / 2^32          if received: RTS of the packet that reported it

use crate::lent::held;
use crate::metric::{decode, Metric};
use crate::refusal::Refusal;
use crate::sent::{Sent, Status, Stream};
use crate::store::{wrapped, CELLS_OF_A_PLACE, WINDOW};

/// R, and how many metrics there are without it.
const R: u16 = 0x8000;
const METRICS_WITHOUT_R: u64 = 1 << 15;

const METRIC_UNIT: u64 = 1 << 16;
const RTS_UNIT: u64 = 1 << 32;

/// The word of a number that was not received before, after a metric in a packet with that RTS.
pub fn entered(metric: u16, rts: u32) -> u64 {
    match decode(metric) {
        Metric::NotReceived => 2,
        _ => 3 + METRIC_UNIT * u64::from(metric) + RTS_UNIT * u64::from(rts),
    }
}

/// The store in which the numbers of each held place's window are registered as their cells say,
/// with one report each at most.
pub fn read(places: &[u64], cells: &[u64]) -> Result<Sent, Refusal> {
    if cells.len() != CELLS_OF_A_PLACE * places.len() {
        return Err(Refusal::BadStore);
    }
    let of_places = cells.chunks(CELLS_OF_A_PLACE);
    Sent::new(places.iter().zip(of_places).map(|(word, cells)| stream(*word, cells)).collect())
}

fn stream(word: u64, cells: &[u64]) -> Option<Stream> {
    let (ssrc, highest) = held(word)?;
    let highest = i64::from(highest);
    let registered = WINDOW
        .filter_map(|back| {
            let full = highest - back;
            let cell = cells[usize::from(wrapped(full)) % cells.len()];
            reports(cell).map(|reports| (full, reports))
        })
        .collect();
    Some(Stream { ssrc, highest, registered })
}

fn reports(cell: u64) -> Option<Vec<Status>> {
    let metric = R + (cell / METRIC_UNIT % METRICS_WITHOUT_R) as u16;
    match cell % 4 {
        0 => None,
        1 => Some(vec![]),
        2 => Some(vec![Status::Missing]),
        _ => Some(vec![Status::reported(metric, (cell / RTS_UNIT) as u32)]),
    }
}

#[cfg(test)]
mod tests {
    use super::*;
    use crate::lent::{place_word, HELD};

    #[test]
    fn words() {
        let places = [place_word(7, 1), 2 * HELD, place_word(7, 0)];
        let mut cells = vec![u64::MAX; 3 * CELLS_OF_A_PLACE];
        let words = [0xFFFF_FFFC, 0x5_0000_2002_0003, u64::MAX - 2, 0x1_0002];
        for (number, word) in [0, 1, 2_047, 2_046].into_iter().zip(words) {
            cells[number] = word;
        }
        let sent = read(&places, &cells).unwrap();
        let received = Status::Received { mark: 1, time: 0x0005_0000 - 128 };
        assert_eq!(sent.status(7, 0), Err(Refusal::NotRegistered));
        assert_eq!(sent.status(7, 1), Ok(received));
        assert_eq!(sent.status(7, 65_535), Ok(Status::NotReported));
        assert_eq!(sent.status(7, 65_534), Ok(Status::Missing));
        assert_eq!(sent.status(7, 65_533), Ok(Status::NoTime { mark: 3 }));
        assert_eq!(sent.status(7, 2), Err(Refusal::NotRegistered));
        assert!(read(&places, &cells[1..]).is_err());
    }
}
