//! Feedback in a datagram; a step is a count, a part, or a packet.

use super::{row, Row};
use crate::baseline::datagram::BASELINE;
use crate::calls::datagram::DatagramCalls;
use crate::packet::{Block, Packet};
use crate::rng::{Rng, USUAL_SEED};
use std::hint::black_box;

/// How often a run goes over its datagram.
const TIMES: usize = 1_000;

/// A sender report without report blocks, and a source description with a name: what stands before
/// the feedback in a compound datagram.
const BEFORE: [u8; 56] = *b"\
    \x80\xc8\x00\x06\x00\x00\x00\x01\
    \x00\x05\x00\x00\x00\x00\x00\x00\x00\x00\x00\x00\x00\x00\x00\x00\x00\x00\x00\x00\
    \x81\xca\x00\x06\x00\x00\x00\x01\x01\x0ecamera@example\0\0\0\0";
const PACKETS_BEFORE: usize = 2;

/// How many CCFB packets of one block of 4 make a datagram of 16 packets.
const SMALL: usize = 14;

pub fn rows() -> Vec<Row> {
    let one = [&BEFORE[..], &feedback(590)].concat();
    let small = [&BEFORE[..], &feedback(4).repeat(SMALL)].concat();
    vec![
        timed("count feedback, SR, SDES and 1 of 590", 1, |calls| count(calls, &one, 1)),
        timed("find feedback, SR, SDES and 1 of 590", 1, |calls| parts(calls, &one, 1)),
        timed("count feedback, 16 small packets", 1, |calls| count(calls, &small, SMALL)),
        timed("find feedback, 16 small packets", SMALL, |calls| parts(calls, &small, SMALL)),
        timed("next packet, 16 small packets", PACKETS_BEFORE + SMALL, |calls| walk(calls, &small)),
    ]
}

/// A packet of one block with so many metrics.
fn feedback(count: u16) -> Vec<u8> {
    let mut rng = Rng::of_case(USUAL_SEED, u64::from(count));
    let block = Block { ssrc: 1, begin: 0, metrics: (0..count).map(|_| rng.u16()).collect() };
    Packet { sender: 1, rts: 2, blocks: vec![block] }.octets()
}

/// The work goes over the datagram once, in so many steps.
fn timed(name: &str, steps: usize, work: impl Fn(DatagramCalls) -> usize) -> Row {
    let calls = (DatagramCalls::product(), BASELINE);
    let run = |calls, _: &mut ()| {
        for _ in 0..TIMES {
            black_box(work(calls));
        }
    };
    row(name, calls, TIMES * steps, |_| (), run)
}

fn count(calls: DatagramCalls, datagram: &[u8], expected: usize) -> usize {
    let mut count = 0;
    // SAFETY: the slice is passed with its length; the pointer is to a local of its type.
    unsafe { (calls.feedback_count)(datagram.as_ptr(), datagram.len(), &mut count) };
    assert_eq!(count, expected);
    count
}

/// Each part by a question of its own.
fn parts(calls: DatagramCalls, datagram: &[u8], count: usize) -> usize {
    let (octets, len) = (datagram.as_ptr(), datagram.len());
    let mut sum = 0;
    for k in 0..count {
        let (mut packet_at, mut packet_length) = (0, 0);
        // SAFETY: as above.
        let refused =
            unsafe { (calls.feedback)(octets, len, k, &mut packet_at, &mut packet_length) };
        assert_eq!(refused, 0);
        sum += packet_at + packet_length;
    }
    sum
}

/// Each packet by the cursor.
fn walk(calls: DatagramCalls, datagram: &[u8]) -> usize {
    let (octets, len) = (datagram.as_ptr(), datagram.len());
    let (mut at, mut sum) = (0, 0);
    loop {
        let (mut packet_type, mut format, mut packet_at, mut packet_length) = (0, 0, 0, 0);
        // SAFETY: as above.
        let refused = unsafe {
            let (t, f, p, l) = (&mut packet_type, &mut format, &mut packet_at, &mut packet_length);
            (calls.next_packet)(octets, len, &mut at, t, f, p, l)
        };
        if refused != 0 {
            assert_eq!(at, len);
            return sum;
        }
        sum += packet_at + packet_length + usize::from(packet_type) + usize::from(format);
    }
}
