//! Random feedback on streams: good packets, damaged ones, and packets that come again or late.

use super::packets::{put_fault, random_metric};
use crate::packet::{Block, Packet};
use crate::rng::Rng;
use crate::store::CELLS_OF_A_PLACE;

/// A stream that can be reported on, and its H.
pub type Reported = (u32, u16);

/// How many packets are kept to come again.
const KEPT: usize = 24;

/// How far before H a block can begin.
const BEGINS: [u16; 9] = [0, 1, 2_046, 2_047, 2_048, 2_049, 32_767, 32_768, 65_535];

/// The packets that came last.
#[derive(Default)]
pub struct Feedback {
    kept: Vec<Vec<u8>>,
}

impl Feedback {
    /// A packet on the streams that are held and on others, or one of the last packets again.
    pub fn next(&mut self, rng: &mut Rng, held: &[Reported], streams: &[u32]) -> Vec<u8> {
        if !self.kept.is_empty() && rng.one_in(4) {
            return self.kept[rng.below(self.kept.len() as u64) as usize].clone();
        }
        let octets = random_feedback(rng, held, streams);
        if self.kept.len() < KEPT {
            self.kept.push(octets.clone());
        } else {
            self.kept[rng.below(KEPT as u64) as usize] = octets.clone();
        }
        octets
    }
}

fn random_feedback(rng: &mut Rng, held: &[Reported], streams: &[u32]) -> Vec<u8> {
    let mut blocks: Vec<Block> = Vec::new();
    for _ in 0..rng.below(6) {
        let again = blocks.last().map(|block| block.ssrc).filter(|_| rng.one_in(3));
        blocks.push(random_block(rng, held, streams, again));
    }
    let counts: Vec<usize> = blocks.iter().map(|block| block.metrics.len()).collect();
    let rts = if rng.one_in(2) { rng.u32() } else { rng.below(524_288) as u32 };
    let mut octets = Packet { sender: rng.u32(), rts, blocks }.octets();
    if rng.one_in(6) {
        for _ in 0..1 + rng.below(3) {
            put_fault(rng, &mut octets, &counts);
        }
    }
    if rng.one_in(40) {
        octets.truncate(rng.below(octets.len() as u64) as usize);
    }
    octets
}

/// A block of the stream `again`, or of any.
fn random_block(rng: &mut Rng, held: &[Reported], streams: &[u32], again: Option<u32>) -> Block {
    let of_held = |ssrc| held.iter().find(|stream| stream.0 == ssrc).copied();
    let (ssrc, highest) = match again {
        Some(ssrc) => of_held(ssrc).unwrap_or((ssrc, rng.u16())),
        None if held.is_empty() || rng.one_in(8) => (rng.pick(streams), rng.u16()),
        None => rng.pick(held),
    };
    let back = match rng.below(8) {
        0 => rng.pick(&BEGINS),
        1 => rng.u16(),
        2 => 0u16.wrapping_sub(rng.below(50) as u16),
        3 | 4 => rng.below(60) as u16,
        _ => rng.below(2_100) as u16,
    };
    let count = match rng.below(32) {
        0 => rng.pick(&[0, CELLS_OF_A_PLACE, 16_384]),
        1 => rng.below(5_000) as usize,
        2..=8 => rng.below(600) as usize,
        9..=16 => rng.below(8) as usize,
        _ => rng.below(64) as usize,
    };
    let metrics = (0..count).map(|_| random_metric(rng)).collect();
    Block { ssrc, begin: highest.wrapping_sub(back), metrics }
}
