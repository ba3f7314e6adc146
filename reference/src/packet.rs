//! A CCFB packet, read word by word and written half-word by half-word.

use crate::metric::{decode, Metric};
use crate::refusal::Refusal;
use crate::store::wrapped;

#[derive(Clone, Debug, PartialEq, Eq)]
pub struct Packet {
    pub sender: u32,
    pub rts: u32,
    pub blocks: Vec<Block>,
}

#[derive(Clone, Debug, PartialEq, Eq)]
pub struct Block {
    pub ssrc: u32,
    pub begin: u16,
    pub metrics: Vec<u16>,
}

/// The first two octets: version 2 in two bits, no padding in one, FMT 11 in five; type 205.
pub const FIRST_OCTETS: [u8; 2] = [0x8B, 0xCD];

pub const VERSION: &str = "10";
pub const NO_PADDING: &str = "0";
pub const FMT: &str = "01011";
pub const TYPE: u8 = 205;

/// A packet has a header that ends with the sender, blocks that have a header each, and RTS.
pub const HEADER_OCTETS: usize = 8;
pub const BLOCK_HEADER_OCTETS: usize = 8;
pub const RTS_OCTETS: usize = 4;
pub const EMPTY_PACKET_OCTETS: usize = HEADER_OCTETS + RTS_OCTETS;

/// The most numbers that a block may report on.
pub const MOST_REPORTS: u16 = 16_384;

/// Reads a packet. Accepts any octets.
pub fn parse(octets: &[u8]) -> Result<Packet, Refusal> {
    match walk(octets)? {
        (packet, None) => Ok(packet),
        (_, Some(refusal)) => Err(refusal),
    }
}

/// Reads a packet as far as it goes: the blocks before the first faulty one, and its refusal.
/// Only a fault in the header refuses the whole packet.
pub fn walk(octets: &[u8]) -> Result<(Packet, Option<Refusal>), Refusal> {
    if octets.len() < EMPTY_PACKET_OCTETS {
        return Err(Refusal::PacketTooShort);
    }
    header(octets)?;
    let words: Vec<u32> = octets
        .chunks_exact(4)
        .map(|word| word.iter().fold(0, |value, octet| value * 256 + u32::from(*octet)))
        .collect();
    let (rts, body) = words[2..].split_last().expect("twelve octets");
    let mut body = body.iter().copied();
    let mut packet = Packet { sender: words[1], rts: *rts, blocks: Vec::new() };
    while let Some(ssrc) = body.next() {
        match block(ssrc, &mut body) {
            Ok(block) => packet.blocks.push(block),
            Err(refusal) => return Ok((packet, Some(refusal))),
        }
    }
    Ok((packet, None))
}

/// Refusals 22 to 25.
fn header(octets: &[u8]) -> Result<(), Refusal> {
    let bits = format!("{:08b}", octets[0]);
    let (version, padding, fmt) = (&bits[0..2], &bits[2..3], &bits[3..8]);
    let words = usize::from(octets[2]) * 256 + usize::from(octets[3]) + 1;
    if version != VERSION {
        Err(Refusal::BadVersion)
    } else if octets[1] != TYPE || fmt != FMT {
        Err(Refusal::BadType)
    } else if octets.len() != 4 * words {
        Err(Refusal::BadLength)
    } else if padding != NO_PADDING {
        Err(Refusal::Padded)
    } else {
        Ok(())
    }
}

/// The rest of a block whose SSRC was just taken from the words before RTS.
fn block(ssrc: u32, body: &mut impl Iterator<Item = u32>) -> Result<Block, Refusal> {
    let [begin, count] = halves(body.next().ok_or(Refusal::RunsIntoRts)?);
    if count > MOST_REPORTS {
        return Err(Refusal::TooManyReports);
    }
    let mut metrics = Vec::new();
    while metrics.len() < usize::from(count) {
        metrics.extend(halves(body.next().ok_or(Refusal::RunsIntoRts)?));
    }
    if metrics.len() > usize::from(count) && metrics.pop() != Some(0) {
        return Err(Refusal::FillerNotZero);
    }
    Ok(Block { ssrc, begin, metrics })
}

/// The half-words of a word.
fn halves(word: u32) -> [u16; 2] {
    [(word / 65_536) as u16, (word % 65_536) as u16]
}

impl Block {
    /// Its octets, with the header and the filler.
    fn size(&self) -> usize {
        BLOCK_HEADER_OCTETS + 2 * (self.metrics.len() + self.metrics.len() % 2)
    }
}

impl Packet {
    pub fn block(&self, k: usize) -> Result<&Block, Refusal> {
        self.blocks.get(k).ok_or(Refusal::NoBlock)
    }

    /// The octet where the metrics of block `k` start, and their length in octets.
    pub fn block_metrics(&self, k: usize) -> Result<(usize, usize), Refusal> {
        let block = self.block(k)?;
        let before: usize = self.blocks[..k].iter().map(Block::size).sum();
        let metrics_at = HEADER_OCTETS + before + BLOCK_HEADER_OCTETS;
        Ok((metrics_at, 2 * block.metrics.len()))
    }

    /// Metric `j` of block `k`, with its number.
    pub fn metric(&self, k: usize, j: usize) -> Result<(u16, Metric), Refusal> {
        let block = self.block(k)?;
        let metric = block.metrics.get(j).ok_or(Refusal::NoNumber)?;
        Ok((wrapped(i64::from(block.begin) + j as i64), decode(*metric)))
    }

    /// The octets of this packet. Its length field must hold its length.
    pub fn octets(&self) -> Vec<u8> {
        let size = EMPTY_PACKET_OCTETS + self.blocks.iter().map(Block::size).sum::<usize>();
        let length = u16::try_from(size / 4 - 1).expect("the length fits its field");
        let mut written = vec![u16::from_be_bytes(FIRST_OCTETS), length];
        written.extend(halves(self.sender));
        for block in &self.blocks {
            written.extend(halves(block.ssrc));
            written.extend([block.begin, block.metrics.len() as u16]);
            written.extend(&block.metrics);
            written.resize(written.len() + block.metrics.len() % 2, 0);
        }
        written.extend(halves(self.rts));
        written.iter().flat_map(|half| [(half / 256) as u8, (half % 256) as u8]).collect()
    }

    /// This packet with every not-received metric set to 0.
    fn tidied(mut self) -> Packet {
        for metric in self.blocks.iter_mut().flat_map(|block| &mut block.metrics) {
            if decode(*metric) == Metric::NotReceived {
                *metric = 0;
            }
        }
        self
    }
}

/// What the rewriter writes to an output of `room` octets.
pub fn rewrite(octets: &[u8], room: usize) -> Result<Vec<u8>, Refusal> {
    let written = parse(octets)?.tidied().octets();
    if room < written.len() {
        return Err(Refusal::OutputTooShort);
    }
    Ok(written)
}

#[cfg(test)]
mod tests {
    use super::*;

    fn example() -> Packet {
        let first = Block { ssrc: 7, begin: 65_535, metrics: vec![0xBFFD, 0x7FFF, 0xFFFE] };
        let second = Block { ssrc: 8, begin: 5, metrics: vec![] };
        let third = Block { ssrc: 9, begin: 6, metrics: vec![0xFFFF, 0x0000] };
        Packet { sender: 0xF1, rts: 0x0102_0304, blocks: vec![first, second, third] }
    }

    fn refusal(octets: &[u8]) -> Option<Refusal> {
        parse(octets).err()
    }

    fn changed(at: usize, to: u8) -> Vec<u8> {
        let mut octets = example().octets();
        octets[at] = to;
        octets
    }

    #[test]
    fn what_was_written_is_read() {
        let packet = example();
        assert_eq!(parse(&packet.octets()), Ok(packet.clone()));
        assert_eq!(packet.block_metrics(0), Ok((16, 6)));
        assert_eq!(packet.block_metrics(1), Ok((32, 0)));
        assert_eq!(packet.block_metrics(2), Ok((40, 4)));
        assert_eq!(packet.block_metrics(3), Err(Refusal::NoBlock));
        assert_eq!(packet.metric(0, 1), Ok((0, Metric::NotReceived)));
        assert_eq!(packet.metric(0, 2), Ok((1, Metric::OverRange { mark: 3 })));
        assert_eq!(packet.metric(0, 3), Err(Refusal::NoNumber));
    }

    #[test]
    fn no_block() {
        let octets = [0x8B, 0xCD, 0, 2, 0, 0, 0, 1, 0, 0, 0, 2];
        assert_eq!(parse(&octets), Ok(Packet { sender: 1, rts: 2, blocks: vec![] }));
    }

    #[test]
    fn refusals() {
        assert_eq!(refusal(&[0; 11]), Some(Refusal::PacketTooShort));
        assert_eq!(refusal(&changed(0, 0x0B)), Some(Refusal::BadVersion));
        assert_eq!(refusal(&changed(0, 0xAA)), Some(Refusal::BadType));
        assert_eq!(refusal(&changed(1, 206)), Some(Refusal::BadType));
        assert_eq!(refusal(&changed(3, 9)), Some(Refusal::BadLength));
        assert_eq!(refusal(&changed(0, 0xAB)), Some(Refusal::Padded));
        assert_eq!(refusal(&changed(39, 3)), Some(Refusal::RunsIntoRts));
        assert_eq!(refusal(&changed(14, 0x41)), Some(Refusal::TooManyReports));
        assert_eq!(refusal(&changed(23, 1)), Some(Refusal::FillerNotZero));
    }

    #[test]
    fn rewriting() {
        let octets = example().octets();
        let once = rewrite(&octets, octets.len()).unwrap();
        assert_eq!(once[18..20], [0, 0]);
        assert_eq!(once.iter().zip(&octets).filter(|(a, b)| a != b).count(), 2);
        assert_eq!(rewrite(&once, once.len()), Ok(once.clone()));
        assert_eq!(rewrite(&once, once.len() - 1), Err(Refusal::OutputTooShort));
    }
}
