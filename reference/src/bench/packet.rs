//! Reading and rewriting; a step is a metric.

use super::{row, Row};
use crate::baseline::packet::BASELINE;
use crate::calls::packet::PacketCalls;
use crate::packet::{Block, Packet};
use crate::refusal::Refusal;
use crate::rng::{Rng, USUAL_SEED};
use std::hint::black_box;

const NO_NUMBER: u8 = Refusal::NoNumber.number();

/// How often a run goes over its packet.
const TIMES: usize = 100;

/// How many blocks, and how many metrics in each.
const SHAPES: [(u32, u16); 4] = [(1, 590), (11, 50), (16, 36), (16, 8)];

/// What the calls write to.
struct Outputs {
    packet: Vec<u8>,
    kinds: Vec<u8>,
    marks: Vec<u8>,
    offsets: Vec<u16>,
}

pub fn rows() -> Vec<Row> {
    SHAPES.into_iter().flat_map(shape_rows).collect()
}

/// The packet of a shape: streams 0, 1 and so on with random numbers and metrics.
pub fn packet_of((blocks, count): (u32, u16)) -> Packet {
    let mut rng = Rng::of_case(USUAL_SEED, u64::from(blocks));
    let blocks = (0..blocks)
        .map(|ssrc| Block {
            ssrc,
            begin: rng.u16(),
            metrics: (0..count).map(|_| rng.u16() | rng.pick(&[0, 0x8000])).collect(),
        })
        .collect();
    Packet { sender: 1, rts: 2, blocks }
}

fn shape_rows((blocks, count): (u32, u16)) -> [Row; 4] {
    let steps = TIMES * blocks as usize * usize::from(count);
    let shape = format!("{blocks} of {count}");
    let packet = packet_of((blocks, count)).octets();
    let calls = (PacketCalls::product(), BASELINE);
    let fresh = |_| Outputs {
        packet: vec![0; packet.len()],
        kinds: vec![0; count.into()],
        marks: vec![0; count.into()],
        offsets: vec![0; count.into()],
    };
    let timed = |name: &str, work: fn(PacketCalls, &[u8], &mut Outputs) -> u64| {
        row(&format!("{name} {shape}"), calls, steps, fresh, |calls, out| {
            for _ in 0..TIMES {
                black_box(work(calls, &packet, out));
            }
        })
    };
    [
        timed("read in one pass,", in_one_pass),
        timed("decode in one pass,", decode_in_one_pass),
        timed("read by ccfb_metric,", by_metric),
        timed("rewrite", rewrite),
    ]
}

/// Each metric from the part of its block.
fn in_one_pass(calls: PacketCalls, packet: &[u8], _: &mut Outputs) -> u64 {
    let mut sum = 0;
    each_part(calls, packet, |part| {
        for j in 0..part.len() / 2 {
            let (mut kind, mut mark, mut offset) = (0, 0, 0);
            let (k, m, o) = (&mut kind, &mut mark, &mut offset);
            // SAFETY: the slice is passed with its length; the pointers are to locals of their type.
            unsafe { (calls.metric_at)(part.as_ptr(), part.len(), j, k, m, o) };
            sum += u64::from(kind) + u64::from(mark) + u64::from(offset);
        }
    });
    sum
}

/// All metrics of each part by one call. What it writes is not read.
fn decode_in_one_pass(calls: PacketCalls, packet: &[u8], out: &mut Outputs) -> u64 {
    let Outputs { kinds, marks, offsets, .. } = out;
    let (kinds_len, marks_len, offsets_len) = (kinds.len(), marks.len(), offsets.len());
    let mut parts = 0;
    each_part(calls, packet, |part| {
        let (p, n) = (part.as_ptr(), part.len());
        let (k, m, o) = (kinds.as_mut_ptr(), marks.as_mut_ptr(), offsets.as_mut_ptr());
        // SAFETY: each slice is passed with its length.
        unsafe { (calls.decode_metrics)(p, n, k, kinds_len, m, marks_len, o, offsets_len) };
        parts += 1;
    });
    parts
}

/// The part of each block, by the cursor.
#[inline(always)]
fn each_part(calls: PacketCalls, packet: &[u8], mut visit: impl FnMut(&[u8])) {
    let (octets, len) = (packet.as_ptr(), packet.len());
    let mut at = 0;
    // SAFETY: the slice is passed with its length; the pointers are to locals of their type.
    unsafe { (calls.first_block)(octets, len, &mut at) };
    loop {
        let (mut ssrc, mut begin, mut count, mut metrics_at) = (0, 0, 0, 0);
        let (s, b, c) = (&mut ssrc, &mut begin, &mut count);
        // SAFETY: as above.
        if unsafe { (calls.next_block)(octets, len, &mut at, s, b, c, &mut metrics_at) } != 0 {
            return;
        }
        visit(&packet[metrics_at..metrics_at + 2 * usize::from(count)]);
    }
}

/// Each metric by a call of its own.
fn by_metric(calls: PacketCalls, packet: &[u8], _: &mut Outputs) -> u64 {
    let (octets, len) = (packet.as_ptr(), packet.len());
    let (mut k, mut j) = (0, 0);
    let mut sum = 0;
    loop {
        let (mut number, mut kind, mut mark, mut offset) = (0, 0, 0, 0);
        // SAFETY: as above.
        let refused = unsafe {
            let kind = &mut kind;
            (calls.metric)(octets, len, k, j, &mut number, kind, &mut mark, &mut offset)
        };
        match refused {
            0 => j += 1,
            NO_NUMBER => (k, j) = (k + 1, 0),
            _ => return sum,
        }
        sum += u64::from(kind) + u64::from(mark) + u64::from(offset) + u64::from(number);
    }
}

fn rewrite(calls: PacketCalls, packet: &[u8], out: &mut Outputs) -> u64 {
    let mut written = 0;
    let (output, room) = (out.packet.as_mut_ptr(), out.packet.len());
    // SAFETY: each slice is passed with its length.
    unsafe { (calls.rewrite)(packet.as_ptr(), packet.len(), output, room, &mut written) };
    written as u64
}
