//! A sender's store: for each stream every number that was registered, under its full number, with
//! all that feedback has said of it since, in order. Every answer is read from that list.

use crate::metric::{decode, Metric};
use crate::packet::parse;
use crate::refusal::Refusal;
use crate::store::{full_of, MOST_PLACES, WINDOW};
use std::collections::BTreeMap;

/// What feedback has said of a registered number.
#[derive(Clone, Copy, Debug, PartialEq, Eq)]
pub enum Status {
    NotReported,
    Missing,
    Received { mark: u8, time: u32 },
    OverRange { mark: u8 },
    NoTime { mark: u8 },
}

/// How many times there are before they wrap around, and how many an offset counts.
const TIME_ROUND: i64 = 1 << 32;
const TIMES_IN_AN_OFFSET: i64 = 64;

impl Status {
    /// What a metric says of its number, in a packet with that RTS.
    pub fn reported(metric: u16, rts: u32) -> Status {
        match decode(metric) {
            Metric::NotReceived => Status::Missing,
            Metric::Received { mark, offset } => {
                let time = i64::from(rts) - TIMES_IN_AN_OFFSET * i64::from(offset);
                Status::Received { mark, time: time.rem_euclid(TIME_ROUND) as u32 }
            }
            Metric::OverRange { mark } => Status::OverRange { mark },
            Metric::NoTime { mark } => Status::NoTime { mark },
        }
    }

    fn is_received(&self) -> bool {
        !matches!(self, Status::NotReported | Status::Missing)
    }
}

/// A stream with its history.
#[derive(Clone, Debug)]
pub struct Stream {
    pub ssrc: u32,
    /// The full number of H, the highest number that was registered.
    pub highest: i64,
    /// All that was reported of each registered full number.
    pub registered: BTreeMap<i64, Vec<Status>>,
}

impl Stream {
    /// The full number that `number` has in the window.
    fn in_window(&self, number: u16) -> Option<i64> {
        full_of(self.highest, number).filter(|full| *full <= self.highest)
    }

    fn report(&mut self, number: u16, status: Status) {
        let full = self.in_window(number);
        if let Some(reports) = full.and_then(|full| self.registered.get_mut(&full)) {
            reports.push(status);
        }
    }

    /// The status of a full number, `None` if it is not registered.
    fn status(&self, full: i64) -> Option<Status> {
        let reports = self.registered.get(&full)?;
        let received = reports.iter().rev().find(|status| status.is_received());
        Some(*received.or(reports.last()).unwrap_or(&Status::NotReported))
    }

    /// The numbers of the window: H first, then H-1 and so on.
    pub fn window(&self) -> Vec<Option<Status>> {
        WINDOW.map(|back| self.status(self.highest - back)).collect()
    }
}

#[derive(Clone, Debug)]
pub struct Sent {
    places: Vec<Option<Stream>>,
}

impl Sent {
    pub fn new(places: Vec<Option<Stream>>) -> Result<Sent, Refusal> {
        if places.is_empty() || places.len() > MOST_PLACES {
            return Err(Refusal::BadStore);
        }
        Ok(Sent { places })
    }

    pub fn fresh(places: usize) -> Result<Sent, Refusal> {
        Sent::new(vec![None; places])
    }

    pub fn places(&self) -> &[Option<Stream>] {
        &self.places
    }

    /// The stream in the first place that holds `ssrc`.
    pub fn stream(&self, ssrc: u32) -> Option<&Stream> {
        self.places.iter().flatten().find(|stream| stream.ssrc == ssrc)
    }

    fn stream_mut(&mut self, ssrc: u32) -> Option<&mut Stream> {
        self.places.iter_mut().flatten().find(|stream| stream.ssrc == ssrc)
    }

    pub fn register(&mut self, ssrc: u32, number: u16) -> Result<(), Refusal> {
        let Some(stream) = self.stream_mut(ssrc) else {
            return self.start(ssrc, number);
        };
        let full = full_of(stream.highest, number).ok_or(Refusal::TooOld)?;
        stream.highest = stream.highest.max(full);
        stream.registered.entry(full).or_default();
        Ok(())
    }

    fn start(&mut self, ssrc: u32, number: u16) -> Result<(), Refusal> {
        let free = self.places.iter_mut().find(|place| place.is_none());
        let place = free.ok_or(Refusal::NoFreePlace)?;
        let highest = i64::from(number);
        *place = Some(Stream { ssrc, highest, registered: [(highest, Vec::new())].into() });
        Ok(())
    }

    /// Takes in a feedback packet, block by block and number by number.
    pub fn take_in(&mut self, octets: &[u8]) -> Result<(), Refusal> {
        let packet = parse(octets)?;
        for block in packet.blocks {
            let Some(stream) = self.stream_mut(block.ssrc) else {
                continue;
            };
            let mut number = block.begin;
            for metric in block.metrics {
                stream.report(number, Status::reported(metric, packet.rts));
                number = number.wrapping_add(1);
            }
        }
        Ok(())
    }

    pub fn status(&self, ssrc: u32, number: u16) -> Result<Status, Refusal> {
        let stream = self.stream(ssrc).ok_or(Refusal::NotHeld)?;
        let full = stream.in_window(number).ok_or(Refusal::NotRegistered)?;
        stream.status(full).ok_or(Refusal::NotRegistered)
    }
}

#[cfg(test)]
mod tests {
    use super::*;
    use crate::packet::{Block, Packet};

    const RTS: u32 = 0x0005_0000;
    const MISSING: u16 = 0x0000;
    /// An offset of 2, ECT(1).
    const RECEIVED: u16 = 0xA002;
    const OVER_RANGE: u16 = 0xFFFE;
    const NO_TIME: u16 = 0x9FFF;

    /// One place, whose stream 7 has sent these numbers.
    fn sent(numbers: &[u16]) -> Sent {
        let mut sent = Sent::fresh(1).unwrap();
        for number in numbers {
            sent.register(7, *number).unwrap();
        }
        sent
    }

    fn packet(rts: u32, blocks: &[(u32, u16, &[u16])]) -> Vec<u8> {
        let block = |(ssrc, begin, metrics): &(u32, u16, &[u16])| Block {
            ssrc: *ssrc,
            begin: *begin,
            metrics: metrics.to_vec(),
        };
        Packet { sender: 1, rts, blocks: blocks.iter().map(block).collect() }.octets()
    }

    /// The status of number 9 after packets that each say one thing of it.
    fn after(metrics: &[u16]) -> Status {
        let mut sent = sent(&[9]);
        for metric in metrics {
            sent.take_in(&packet(RTS, &[(7, 9, &[*metric])])).unwrap();
        }
        sent.status(7, 9).unwrap()
    }

    #[test]
    fn received_stays_received() {
        let received = Status::Received { mark: 1, time: RTS - 128 };
        assert_eq!(after(&[]), Status::NotReported);
        assert_eq!(after(&[MISSING]), Status::Missing);
        assert_eq!(after(&[MISSING, RECEIVED]), received);
        assert_eq!(after(&[RECEIVED, MISSING]), received);
        assert_eq!(after(&[RECEIVED, OVER_RANGE, MISSING]), Status::OverRange { mark: 3 });
        assert_eq!(after(&[OVER_RANGE, NO_TIME]), Status::NoTime { mark: 0 });
        assert_eq!(after(&[NO_TIME, RECEIVED]), received);
    }

    #[test]
    fn times_wrap() {
        let received = |time| Status::Received { mark: 1, time };
        assert_eq!(Status::reported(RECEIVED, 128), received(0));
        assert_eq!(Status::reported(RECEIVED, 127), received(u32::MAX));
        assert_eq!(Status::reported(0xBFFD, 0), received(0u32.wrapping_sub(64 * 8_189)));
    }

    #[test]
    fn passed_over() {
        let mut sent = sent(&[9, 11]);
        sent.take_in(&packet(RTS, &[(8, 9, &[MISSING]), (7, 8, &[RECEIVED; 5])])).unwrap();
        assert_eq!(sent.status(8, 9), Err(Refusal::NotHeld));
        assert_eq!(sent.status(7, 10), Err(Refusal::NotRegistered));
        for number in [8, 10, 12] {
            sent.register(7, number).unwrap();
            assert_eq!(sent.status(7, number), Ok(Status::NotReported), "{number}");
        }
        assert!(sent.status(7, 9).unwrap().is_received());
        assert!(sent.status(7, 11).unwrap().is_received());
    }

    #[test]
    fn registered_again() {
        let mut sent = sent(&[9, 10]);
        sent.take_in(&packet(RTS, &[(7, 9, &[OVER_RANGE, MISSING])])).unwrap();
        sent.register(7, 9).unwrap();
        sent.register(7, 10).unwrap();
        assert_eq!(sent.status(7, 9), Ok(Status::OverRange { mark: 3 }));
        assert_eq!(sent.status(7, 10), Ok(Status::Missing));
    }

    #[test]
    fn two_blocks_of_a_stream() {
        let mut sent = sent(&[65_535, 0]);
        let blocks: [(u32, u16, &[u16]); 2] =
            [(7, 65_535, &[RECEIVED, NO_TIME]), (7, 65_535, &[OVER_RANGE, MISSING])];
        sent.take_in(&packet(RTS, &blocks)).unwrap();
        assert_eq!(sent.status(7, 65_535), Ok(Status::OverRange { mark: 3 }));
        assert_eq!(sent.status(7, 0), Ok(Status::NoTime { mark: 0 }));
    }

    #[test]
    fn the_window() {
        let mut sent = sent(&[0, 2_047]);
        assert_eq!(sent.status(7, 0), Ok(Status::NotReported));
        assert_eq!(sent.status(7, 2_048), Err(Refusal::NotRegistered));
        sent.register(7, 2_048).unwrap();
        assert_eq!(sent.status(7, 0), Err(Refusal::NotRegistered));
        assert_eq!(sent.register(7, 0), Err(Refusal::TooOld));
        sent.take_in(&packet(RTS, &[(7, 0, &[RECEIVED])])).unwrap();
        sent.register(7, 34_815).unwrap();
        sent.register(7, 65_535).unwrap();
        sent.register(7, 0).unwrap();
        assert_eq!(sent.status(7, 0), Ok(Status::NotReported), "the next round");
    }

    #[test]
    fn refusals() {
        assert!(Sent::fresh(0).is_err() && Sent::fresh(17).is_err());
        let mut sent = sent(&[9]);
        assert_eq!(sent.register(8, 9), Err(Refusal::NoFreePlace));
        let mut octets = packet(RTS, &[(7, 9, &[RECEIVED]), (7, 9, &[RECEIVED])]);
        octets[31] = 1;
        assert_eq!(sent.take_in(&octets), Err(Refusal::FillerNotZero));
        assert_eq!(sent.status(7, 9), Ok(Status::NotReported), "the first block was good");
    }
}
