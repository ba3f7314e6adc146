//! What all packets together say of each stream.

use ccfb::{Metric, Packet};
use std::collections::{BTreeMap, BTreeSet, HashMap};

/// The streams of the packets taken so far.
#[derive(Debug, Default)]
pub struct Streams {
    packets: usize,
    /// In the order of their first blocks.
    streams: Vec<Stream>,
    /// Where a stream stands in `streams`, by its SSRC.
    index: HashMap<u32, usize>,
}

impl Streams {
    pub fn take(&mut self, packet: &Packet) {
        self.packets += 1;
        for block in packet.blocks() {
            let ssrc = block.ssrc();
            let place = *self.index.entry(ssrc).or_insert_with(|| {
                self.streams.push(Stream::new(ssrc));
                self.streams.len() - 1
            });
            self.streams[place].take(block.begin(), block.metrics().map(|(_, metric)| metric));
        }
    }

    /// How many packets were taken.
    pub fn packets(&self) -> usize {
        self.packets
    }

    pub fn all(&self) -> &[Stream] {
        &self.streams
    }
}

/// What is said of one stream. A number is its sequence number counted on without wrapping.
#[derive(Debug)]
pub struct Stream {
    ssrc: u32,
    numbers: BTreeMap<i64, Metric>,
    /// The first number of each block that is not empty.
    begins: BTreeSet<i64>,
}

impl Stream {
    pub fn new(ssrc: u32) -> Stream {
        Stream { ssrc, numbers: BTreeMap::new(), begins: BTreeSet::new() }
    }

    /// Takes a block's metrics. Of two that are said of one number, the later counts.
    pub fn take(&mut self, begin: u16, metrics: impl Iterator<Item = Metric>) {
        let begin = self.unwrapped(begin);
        for (number, metric) in (begin..).zip(metrics) {
            self.begins.insert(begin);
            self.numbers.insert(number, metric);
        }
    }

    /// The number nearest to the highest one so far. Of two equally near, the older.
    fn unwrapped(&self, sequence_number: u16) -> i64 {
        match self.numbers.last_key_value() {
            None => sequence_number.into(),
            Some((&highest, _)) => {
                let ahead = sequence_number.wrapping_sub(wrapped(highest)) as i16;
                highest + i64::from(ahead)
            }
        }
    }

    pub fn ssrc(&self) -> u32 {
        self.ssrc
    }

    /// Each number that is reported, in rising order, with its metric.
    pub fn numbers(&self) -> impl Iterator<Item = (i64, Metric)> + Clone + '_ {
        self.numbers.iter().map(|(&number, &metric)| (number, metric))
    }

    pub fn begins(&self) -> &BTreeSet<i64> {
        &self.begins
    }

    /// The lowest and the highest number, if any is reported.
    pub fn ends(&self) -> Option<(i64, i64)> {
        Some((*self.numbers.first_key_value()?.0, *self.numbers.last_key_value()?.0))
    }
}

/// The sequence number of a number.
pub fn wrapped(number: i64) -> u16 {
    number as u16
}

#[cfg(test)]
mod tests {
    use super::*;
    use ccfb::Mark;

    const LOST: Metric = Metric::NotReceived;
    const CE: Metric = Metric::NoTime { mark: Mark::Ce };

    /// The stream after these blocks, each a begin and a count of lost numbers.
    fn after(blocks: &[(u16, usize)]) -> Stream {
        let mut stream = Stream::new(1);
        for &(begin, count) in blocks {
            stream.take(begin, vec![LOST; count].into_iter());
        }
        stream
    }

    #[test]
    fn numbers_go_on_past_the_wrap() {
        let stream = after(&[(65_534, 2), (0, 3), (3, 1)]);
        assert_eq!(stream.ends(), Some((65_534, 65_539)));
        assert_eq!(stream.numbers().count(), 6);
        assert_eq!(stream.begins().iter().copied().collect::<Vec<_>>(), [65_534, 65_536, 65_539]);
    }

    #[test]
    fn an_older_block_is_before_the_wrap() {
        assert_eq!(after(&[(65_530, 10), (65_535, 2)]).ends(), Some((65_530, 65_539)));
        assert_eq!(after(&[(2, 1), (65_535, 1)]).ends(), Some((-1, 2)));
        assert_eq!(wrapped(-1), 65_535);
    }

    #[test]
    fn a_jump_is_forward_up_to_32767() {
        assert_eq!(after(&[(0, 1), (32_767, 1)]).ends(), Some((0, 32_767)));
        assert_eq!(after(&[(0, 1), (32_768, 1)]).ends(), Some((-32_768, 0)));
    }

    #[test]
    fn the_later_metric_counts() {
        let mut stream = after(&[(7, 3)]);
        stream.take(8, [CE].into_iter());
        assert_eq!(stream.numbers().collect::<Vec<_>>(), [(7, LOST), (8, CE), (9, LOST)]);
    }

    #[test]
    fn an_empty_block_adds_no_number() {
        let stream = after(&[(7, 0)]);
        assert_eq!(stream.ends(), None);
        assert!(stream.begins().is_empty());
        assert_eq!(after(&[(7, 0), (40_000, 1)]).ends(), Some((40_000, 40_000)));
    }

    #[test]
    fn streams_are_in_the_order_of_their_first_blocks() {
        let packet = |ssrc: u8| {
            let mut octets =
                [0x8b, 0xcd, 0, 5, 0, 0, 0, 1, 0, 0, 0, 0, 0, 9, 0, 1, 0, 0, 0, 0, 0, 0, 0, 0];
            octets[11] = ssrc;
            octets
        };
        let mut streams = Streams::default();
        for ssrc in [8, 7, 8] {
            streams.take(&Packet::read(&packet(ssrc)).expect("a packet"));
        }
        assert_eq!(streams.packets(), 3);
        assert_eq!(streams.all().iter().map(Stream::ssrc).collect::<Vec<_>>(), [8, 7]);
    }
}
