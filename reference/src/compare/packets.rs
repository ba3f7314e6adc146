//! Random packets, and faults to put into them.

use crate::packet::{
    Block, Packet, BLOCK_HEADER_OCTETS, EMPTY_PACKET_OCTETS, HEADER_OCTETS, MOST_REPORTS,
    RTS_OCTETS,
};
use crate::rng::Rng;

/// A metric of any kind, often one at an edge.
pub fn random_metric(rng: &mut Rng) -> u16 {
    match rng.below(3) {
        0 => rng.pick(&[0, 1, 0x7FFF, 0x8000, 0x9FFD, 0xBFFD, 0xFFFE, 0xFFFF]),
        1 => rng.u16() % 0x8000,
        _ => rng.u16(),
    }
}

fn random_block(rng: &mut Rng, count: usize) -> Block {
    let begin = if rng.one_in(2) { rng.u16() } else { 65_535 - rng.below(4) as u16 };
    let all_ones = rng.one_in(8);
    let metrics = (0..count).map(|_| if all_ones { 0xFFFF } else { random_metric(rng) }).collect();
    Block { ssrc: rng.u32(), begin, metrics }
}

/// A packet with blocks of these counts.
pub fn packet_of(rng: &mut Rng, counts: &[usize]) -> Packet {
    let blocks = counts.iter().map(|count| random_block(rng, *count)).collect();
    Packet { sender: rng.u32(), rts: rng.u32(), blocks }
}

/// Counts of up to 12 blocks, most of them small.
pub fn small_counts(rng: &mut Rng) -> Vec<usize> {
    let blocks = rng.below(13);
    (0..blocks)
        .map(|_| match rng.below(8) {
            0 => 0,
            1 => rng.below(64) as usize,
            _ => rng.below(8) as usize,
        })
        .collect()
}

/// Sets the length field to the length of the octets.
pub fn set_length(octets: &mut [u8]) {
    let length = (octets.len() / 4 - 1) as u16;
    octets[2..4].copy_from_slice(&length.to_be_bytes());
}

/// Where the block headers start, by the counts.
fn starts(counts: &[usize]) -> Vec<usize> {
    let mut at = HEADER_OCTETS;
    counts
        .iter()
        .map(|count| {
            let start = at;
            at += BLOCK_HEADER_OCTETS + 2 * (count + count % 2);
            start
        })
        .collect()
}

/// Puts a fault of a random kind into the octets of a packet with these counts. Some kinds find
/// nothing to damage in some packets.
pub fn put_fault(rng: &mut Rng, octets: &mut Vec<u8>, counts: &[usize]) {
    match rng.below(9) {
        0 => octets[0] ^= rng.pick(&[0x40, 0x80, 0xC0]),
        1 => octets[0] ^= 1 + rng.below(31) as u8,
        2 => octets[1] ^= 1 + rng.below(255) as u8,
        3 => octets[0] ^= 0x20,
        4 => octets[3] = octets[3].wrapping_add(rng.pick(&[1, 255, 2, 16])),
        5 => octets[2] ^= 1 << rng.below(8),
        _ => put_body_fault(rng, octets, counts),
    }
}

/// As `put_fault`, with a fault behind the header; the length field fits the octets.
pub fn put_body_fault(rng: &mut Rng, octets: &mut Vec<u8>, counts: &[usize]) {
    let block = rng.below(counts.len().max(1) as u64) as usize;
    match rng.below(3) {
        0 => cut_words(rng, octets),
        1 => damage_count(rng, octets, &starts(counts), block),
        _ => damage_filler(rng, octets, counts, block),
    }
}

/// Takes out a few words before RTS, and sets the length field.
fn cut_words(rng: &mut Rng, octets: &mut Vec<u8>) {
    let words = 1 + rng.below(4) as usize;
    if octets.len() >= EMPTY_PACKET_OCTETS + 4 * words {
        let rts_at = octets.len() - RTS_OCTETS;
        octets.drain(rts_at - 4 * words..rts_at);
        set_length(octets);
    }
}

fn damage_count(rng: &mut Rng, octets: &mut [u8], starts: &[usize], block: usize) {
    let Some(field) = starts.get(block).map(|start| start + 6) else {
        return;
    };
    if field + 2 > octets.len() {
        return;
    }
    let count = u16::from_be_bytes([octets[field], octets[field + 1]]);
    let damaged = match rng.below(4) {
        0 => rng.pick(&[MOST_REPORTS, MOST_REPORTS + 1, 32_763, 32_766, 32_768, 65_534, 65_535]),
        1 => rng.u16(),
        _ => count.wrapping_add(rng.pick(&[1, 2, 3, 65_535])),
    };
    octets[field..field + 2].copy_from_slice(&damaged.to_be_bytes());
}

/// Flips a bit of the filler of the first block, starting at `block`, with an odd count.
fn damage_filler(rng: &mut Rng, octets: &mut [u8], counts: &[usize], block: usize) {
    let odd = (block..counts.len()).find(|block| counts[*block] % 2 == 1);
    let Some(block) = odd else {
        return;
    };
    let filler = starts(counts)[block] + BLOCK_HEADER_OCTETS + 2 * counts[block];
    if filler + 2 <= octets.len() {
        octets[filler + rng.below(2) as usize] ^= 1 << rng.below(8);
    }
}
