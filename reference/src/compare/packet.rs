//! Reader and rewriter: packets of every shape, whole, damaged and cut, and random octets.

use super::packets::{packet_of, put_fault, set_length, small_counts};
use super::{numbered, output, unwritten, Hex, Mismatch, Tally};
use crate::calls::metric::OFFSET_BEFORE;
use crate::calls::packet::{Arrays, PacketCalls};
use crate::metric::{decode, decode_part};
use crate::packet::{
    parse, rewrite, walk, Packet, BLOCK_HEADER_OCTETS, EMPTY_PACKET_OCTETS, FIRST_OCTETS,
    HEADER_OCTETS, MOST_REPORTS,
};
use crate::refusal::Refusal;
use crate::rng::{rounds, Rng};
use std::ops::Range;

/// Where num_reports of the first block is.
const COUNT: Range<usize> = 14..16;

/// The largest offset and the two codes above it, in the 13 lowest bits of a metric.
const EDGE_OFFSETS: [u16; 3] = [0x1FFD, 0x1FFE, 0x1FFF];
const OFFSET_BITS: u32 = 13;

/// The octets of the longest packet that a length field can give.
pub(super) const LONGEST: usize = 4 * 65_536;

pub fn run(calls: &PacketCalls, tally: &mut Tally) -> Result<(), Mismatch> {
    known_traps(calls, tally)?;
    large(calls, tally)?;
    for _ in 0..rounds(40_000) {
        tally.case += 1;
        let mut rng = Rng::of_case(tally.seed, tally.case);
        damaged(calls, tally, &mut rng)?;
    }
    for _ in 0..rounds(60) {
        tally.case += 1;
        let mut rng = Rng::of_case(tally.seed, tally.case);
        cut_at_each_octet(calls, tally, &mut rng)?;
    }
    for _ in 0..rounds(20_000) {
        tally.case += 1;
        let mut rng = Rng::of_case(tally.seed, tally.case);
        random_octets(calls, tally, &mut rng)?;
    }
    every_metric(calls, tally)?;
    for _ in 0..rounds(20_000) {
        tally.case += 1;
        let mut rng = Rng::of_case(tally.seed, tally.case);
        random_part(calls, tally, &mut rng)?;
    }
    Ok(())
}

/// What `read` answers of a packet: sender, RTS and number of blocks.
pub(super) fn fields(packet: &Packet) -> (u32, u32, usize) {
    (packet.sender, packet.rts, packet.blocks.len())
}

/// Asks everything about some octets, and rewrites them.
pub(super) fn compare(
    calls: &PacketCalls,
    tally: &mut Tally,
    rng: &mut Rng,
    octets: &[u8],
) -> Result<(), Mismatch> {
    let reference = parse(octets);
    let answer = reference.as_ref().map(fields).map_err(|refusal| *refusal);
    tally.same(&("read", Hex(octets)), calls.read(octets), numbered(answer))?;
    match &reference {
        Ok(packet) => questions(calls, tally, rng, octets, packet)?,
        Err(refusal) => refused_questions(calls, tally, rng, octets, *refusal)?,
    }
    one_pass(calls, tally, octets)?;
    rewriting(calls, tally, rng, octets)
}

fn refused_questions(
    calls: &PacketCalls,
    tally: &mut Tally,
    rng: &mut Rng,
    octets: &[u8],
    refusal: Refusal,
) -> Result<(), Mismatch> {
    let refusal = refusal.number();
    let input = ("questions", Hex(octets));
    for (k, j) in [(0, 0), (rng.below(20) as usize, rng.below(20) as usize), (usize::MAX, 0)] {
        tally.same(&(input, k), calls.block(octets, k), Err(refusal))?;
        tally.same(&(input, k), calls.block_metrics(octets, k), Err(refusal))?;
        tally.same(&(input, k, j), calls.metric(octets, k, j), Err(refusal))?;
    }
    Ok(())
}

/// Every block and metric, and some that are not there.
fn questions(
    calls: &PacketCalls,
    tally: &mut Tally,
    rng: &mut Rng,
    octets: &[u8],
    packet: &Packet,
) -> Result<(), Mismatch> {
    let blocks = packet.blocks.len();
    let metrics: usize = packet.blocks.iter().map(|block| block.metrics.len()).sum();
    // A question walks all blocks, so only some blocks and metrics of large packets are asked for.
    let one_block_in = 1 + blocks as u64 / 500;
    let one_metric_in = 1 + (blocks * metrics) as u64 / 100_000;
    for k in (0..blocks + 2).chain([usize::MAX]) {
        if k < blocks && !rng.one_in(one_block_in) {
            continue;
        }
        let block = packet.block(k).map(|b| (b.ssrc, b.begin, b.metrics.len() as u16));
        let part = numbered(packet.block_metrics(k));
        tally.same(&("block", k, Hex(octets)), calls.block(octets, k), numbered(block))?;
        tally.same(&("part", k, Hex(octets)), calls.block_metrics(octets, k), part)?;
        let count = packet.block(k).map_or(0, |block| block.metrics.len());
        for j in (0..count + 2).chain([32_768, 65_536, usize::MAX]) {
            if j < count && !rng.one_in(one_metric_in) {
                continue;
            }
            let reference = numbered(packet.metric(k, j));
            tally.same(&("metric", k, j, Hex(octets)), calls.metric(octets, k, j), reference)?;
        }
    }
    Ok(())
}

/// The blocks by `first_block` and `next_block` up to the first refusal, and their metrics.
fn one_pass(calls: &PacketCalls, tally: &mut Tally, octets: &[u8]) -> Result<(), Mismatch> {
    let first = calls.first_block(octets);
    let (packet, fault) = match walk(octets) {
        Ok(walked) => walked,
        Err(refusal) => {
            return tally.same(&("first block", Hex(octets)), first, Err(refusal.number()));
        }
    };
    let mut at = tally.accepted(&("first block", Hex(octets)), first)?;
    let mut metrics_at = HEADER_OCTETS + BLOCK_HEADER_OCTETS;
    for (k, block) in packet.blocks.iter().enumerate() {
        let reference = (block.ssrc, block.begin, block.metrics.len() as u16, metrics_at);
        let ours = calls.next_block(octets, &mut at);
        tally.same(&("next block", k, Hex(octets)), ours, Ok(reference))?;
        let part = &octets[metrics_at..metrics_at + 2 * block.metrics.len()];
        for j in (0..block.metrics.len() + 1).chain([usize::MAX]) {
            let metric = block.metrics.get(j).map(|metric| decode(*metric));
            let reference = metric.ok_or(Refusal::NoNumber);
            tally.same(&("metric", j, Hex(part)), calls.metric_at(part, j), numbered(reference))?;
        }
        decoding(calls, tally, part, [block.metrics.len(); 3])?;
        metrics_at += part.len().next_multiple_of(4) + BLOCK_HEADER_OCTETS;
    }
    let end = fault.unwrap_or(Refusal::NoBlock).number();
    tally.same(&("last block", Hex(octets)), calls.next_block(octets, &mut at), Err(end))
}

/// Rewrites to outputs of about the right length.
fn rewriting(
    calls: &PacketCalls,
    tally: &mut Tally,
    rng: &mut Rng,
    octets: &[u8],
) -> Result<(), Mismatch> {
    let n = octets.len();
    for room in [0, n.saturating_sub(1), n, n + 1 + rng.below(9) as usize] {
        let mut out = unwritten(room);
        let ours = calls.rewrite(octets, &mut out);
        let reference = numbered(rewrite(octets, room));
        let expected = output(room, &reference);
        let answer = reference.map(|written| written.len());
        tally.same(&("rewrite", room, Hex(octets)), ours, answer)?;
        tally.same(&("rewritten", room, Hex(octets)), Hex(&out), Hex(&expected))?;
    }
    Ok(())
}

/// Every metric, in one part.
fn every_metric(calls: &PacketCalls, tally: &mut Tally) -> Result<(), Mismatch> {
    let part: Vec<u8> = (0..=u16::MAX).flat_map(u16::to_be_bytes).collect();
    decoding(calls, tally, &part, [65_536; 3])
}

/// A part of random octets, at any address and of odd lengths too, into arrays of other lengths.
fn random_part(calls: &PacketCalls, tally: &mut Tally, rng: &mut Rng) -> Result<(), Mismatch> {
    let most = if rng.one_in(20) { 2_000 } else { 80 };
    let (start, length) = (rng.below(4) as usize, rng.below(most) as usize);
    let mut octets: Vec<u8> = (0..start + length).map(|_| rng.below(256) as u8).collect();
    let part = &mut octets[start..];
    for metric in part.chunks_exact_mut(2) {
        if rng.one_in(4) {
            let bits = rng.pick(&EDGE_OFFSETS) | (rng.below(8) as u16) << OFFSET_BITS;
            metric.copy_from_slice(&bits.to_be_bytes());
        }
    }
    let n = length / 2;
    decoding(calls, tally, part, [n; 3])?;
    let rooms = [0, n / 2, n.saturating_sub(1), n, n + 1, n + 1 + rng.below(40) as usize];
    for _ in 0..4 {
        decoding(calls, tally, part, [rng.pick(&rooms), rng.pick(&rooms), rng.pick(&rooms)])?;
    }
    Ok(())
}

/// Decodes a part into arrays of these lengths; entries after the metrics stay.
fn decoding(
    calls: &PacketCalls,
    tally: &mut Tally,
    part: &[u8],
    rooms: [usize; 3],
) -> Result<(), Mismatch> {
    let mut arrays = Arrays {
        kinds: unwritten(rooms[0]),
        marks: unwritten(rooms[1]),
        offsets: unwritten(rooms[2])
            .iter()
            .map(|octet| OFFSET_BEFORE ^ u16::from(*octet))
            .collect(),
    };
    let mut expected = arrays.clone();
    let reference = numbered(decode_part(part, rooms));
    for (j, metric) in reference.iter().flatten().enumerate() {
        (expected.kinds[j], expected.marks[j], expected.offsets[j]) = *metric;
    }
    let ours = calls.decode_metrics(part, &mut arrays);
    tally.same(&("decode metrics", rooms, Hex(part)), ours, reference.map(|_| ()))?;
    tally.same(&("decoded metrics", rooms, Hex(part)), arrays, expected)
}

/// Small inputs of which a field goes through every value, and inputs on which other
/// implementations crash.
fn known_traps(calls: &PacketCalls, tally: &mut Tally) -> Result<(), Mismatch> {
    let mut rng = Rng::of_case(tally.seed, 0);
    let none = [0x8B, 0xCD, 0, 2, 0, 0, 0, 1, 0, 0, 0, 2];
    let mut four = [0xFF; 28];
    four[..8].copy_from_slice(&[0x8B, 0xCD, 0, 6, 0, 0, 0, 1]);
    for length in 0..=none.len() {
        compare(calls, tally, &mut rng, &none[..length])?;
    }
    for value in 0..=u16::MAX {
        for at in [0, 2] {
            let mut octets = none;
            octets[at..at + 2].copy_from_slice(&value.to_be_bytes());
            compare(calls, tally, &mut rng, &octets)?;
        }
        four[COUNT].copy_from_slice(&value.to_be_bytes());
        compare(calls, tally, &mut rng, &four)?;
    }
    Ok(())
}

/// Packets up to the longest that a length field can give, and some longer ones.
fn large(calls: &PacketCalls, tally: &mut Tally) -> Result<(), Mismatch> {
    let mut rng = Rng::of_case(tally.seed, 1);
    let most = usize::from(MOST_REPORTS);
    let shapes: [Vec<usize>; 9] = [
        vec![most],
        vec![most - 1, 1],
        vec![most, 16_370],
        vec![most, most, 3],
        [vec![most; 7], vec![16_346]].concat(),
        vec![590; 40],
        vec![1; 5_000],
        vec![0; 8_190],
        vec![0; 32_766],
    ];
    for counts in shapes {
        let mut octets = packet_of(&mut rng, &counts).octets();
        compare(calls, tally, &mut rng, &octets)?;
        let last = octets.len() - 5;
        octets[last] ^= 1;
        compare(calls, tally, &mut rng, &octets)?;
        octets[COUNT].copy_from_slice(&(MOST_REPORTS + 1).to_be_bytes());
        compare(calls, tally, &mut rng, &octets)?;
    }
    for length in [LONGEST - 4, LONGEST, LONGEST + 1, LONGEST + 4, LONGEST + 12] {
        let mut octets = vec![0; length];
        octets[..2].copy_from_slice(&FIRST_OCTETS);
        set_length(&mut octets);
        compare(calls, tally, &mut rng, &octets)?;
    }
    Ok(())
}

/// A packet with up to three faults at once, so that the order of the refusals shows.
fn damaged(calls: &PacketCalls, tally: &mut Tally, rng: &mut Rng) -> Result<(), Mismatch> {
    let counts = small_counts(rng);
    let mut octets = packet_of(rng, &counts).octets();
    for _ in 0..rng.below(4) {
        put_fault(rng, &mut octets, &counts);
    }
    if rng.one_in(20) {
        let kept = rng.below(octets.len() as u64) as usize;
        octets.truncate(kept);
    }
    if rng.one_in(20) && !octets.is_empty() {
        let at = rng.below(octets.len() as u64) as usize;
        octets[at] ^= 1 << rng.below(8);
    }
    compare(calls, tally, rng, &octets)
}

/// A packet cut at each octet, with its own length field and with one that fits the cut.
fn cut_at_each_octet(
    calls: &PacketCalls,
    tally: &mut Tally,
    rng: &mut Rng,
) -> Result<(), Mismatch> {
    let counts = small_counts(rng);
    let octets = packet_of(rng, &counts).octets();
    for kept in 0..octets.len() {
        let mut cut = octets[..kept].to_vec();
        compare(calls, tally, rng, &cut)?;
        if kept >= EMPTY_PACKET_OCTETS {
            set_length(&mut cut);
            compare(calls, tally, rng, &cut)?;
        }
    }
    Ok(())
}

/// Random octets after a good header; num_reports is often small, so that the walk goes on.
fn random_octets(calls: &PacketCalls, tally: &mut Tally, rng: &mut Rng) -> Result<(), Mismatch> {
    let words = EMPTY_PACKET_OCTETS / 4 + rng.below(60) as usize;
    let mut octets: Vec<u8> = (0..4 * words)
        .map(|_| if rng.one_in(3) { rng.below(256) as u8 } else { rng.below(2) as u8 })
        .collect();
    octets[..2].copy_from_slice(&FIRST_OCTETS);
    set_length(&mut octets);
    for at in (COUNT.start..octets.len()).step_by(8) {
        octets[at] = if rng.one_in(8) { rng.below(256) as u8 } else { 0 };
    }
    compare(calls, tally, rng, &octets)
}
