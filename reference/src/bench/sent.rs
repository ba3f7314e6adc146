//! A sender's store; a step is a registration, a metric, or a question for a number.

use super::packet::packet_of;
use super::{row, Row};
use crate::baseline::sent::BASELINE;
use crate::calls::sent::SentCalls;
use crate::calls::store::Words;
use crate::packet::{Block, Packet};
use crate::rng::{Rng, USUAL_SEED};
use crate::store::{CELLS_OF_A_PLACE, MOST_PLACES};
use std::hint::black_box;

const REGISTRATIONS: usize = 65_536;

/// How often a run takes in its packet, or asks for the numbers of it.
const TIMES: usize = 100;

/// How many numbers were sent after the last that a packet reports on.
const SENT_SINCE: u16 = 100;

/// An SSRC and a number.
type Number = (u32, u16);

pub fn rows() -> Vec<Row> {
    let in_order: Vec<Number> = (0..REGISTRATIONS).map(|i| (0x1234_5678, i as u16)).collect();
    let in_turn: Vec<Number> =
        (0..REGISTRATIONS).map(|i| ((i % MOST_PLACES) as u32, (i / MOST_PLACES) as u16)).collect();
    vec![
        registrations("register in order, 1 stream", 1, &in_order),
        registrations("register in order, 16 streams in turn", MOST_PLACES, &in_turn),
        take_in((1, 590)),
        take_in((16, 36)),
        take_in_after_reports((1, 590)),
        take_in_differing((1, 590)),
        status("status of a number, 1 stream", (1, 590)),
        status("status of a number, 16 streams", (16, 36)),
    ]
}

fn registrations(name: &str, places: usize, numbers: &[Number]) -> Row {
    let calls = (SentCalls::product(), BASELINE);
    row(
        name,
        calls,
        numbers.len(),
        |_| Words::fresh(places),
        |calls, words| {
            for &(ssrc, number) in numbers {
                assert_eq!(calls.register(words, ssrc, number), Ok(()));
            }
        },
    )
}

/// A store in which each number of a window about each block of the packet is registered.
fn registered(calls: SentCalls, packet: &Packet) -> Words {
    let mut words = Words::fresh(packet.blocks.len());
    for Block { ssrc, begin, metrics } in &packet.blocks {
        let highest = begin.wrapping_add(metrics.len() as u16 + SENT_SINCE);
        for back in (0..CELLS_OF_A_PLACE as u16).rev() {
            calls.register(&mut words, *ssrc, highest.wrapping_sub(back)).expect("a place");
        }
    }
    words
}

/// The packets of the rows "read in one pass".
fn take_in((blocks, count): (u32, u16)) -> Row {
    let packet = packet_of((blocks, count));
    let octets = packet.octets();
    let steps = TIMES * blocks as usize * usize::from(count);
    let name = format!("take in {blocks} of {count}");
    let prepare = |calls| registered(calls, &packet);
    row(&name, (SentCalls::product(), BASELINE), steps, prepare, |calls, words| {
        for _ in 0..TIMES {
            assert_eq!(calls.take_in(words, &octets), Ok(()));
        }
    })
}

/// The same packet into as many stores, in each of which it meets random numbers that were reported
/// before: no pattern of what is known can be learnt.
fn take_in_after_reports((blocks, count): (u32, u16)) -> Row {
    let packet = packet_of((blocks, count));
    let octets = packet.octets();
    let steps = TIMES * blocks as usize * usize::from(count);
    let name = format!("take in {blocks} of {count}, half reported");
    let mut rng = Rng::of_case(USUAL_SEED, 1);
    let prepare = |calls| -> Vec<Words> {
        let store = registered(calls, &packet);
        let mut stores = vec![store; TIMES];
        for words in &mut stores {
            calls.take_in(words, &half_missing(&mut rng, &packet)).expect("a good packet");
        }
        stores
    };
    row(&name, (SentCalls::product(), BASELINE), steps, prepare, |calls, stores| {
        for words in stores {
            assert_eq!(calls.take_in(words, &octets), Ok(()));
        }
    })
}

/// As many packets on the same numbers with other random metrics: no pattern of losses can be learnt.
fn take_in_differing((blocks, count): (u32, u16)) -> Row {
    let packet = packet_of((blocks, count));
    let steps = TIMES * blocks as usize * usize::from(count);
    let name = format!("take in {blocks} of {count}, differing");
    let mut rng = Rng::of_case(USUAL_SEED, 2);
    let packets: Vec<Vec<u8>> = (0..TIMES).map(|_| with_other_metrics(&mut rng, &packet)).collect();
    let prepare = |calls| registered(calls, &packet);
    row(&name, (SentCalls::product(), BASELINE), steps, prepare, |calls, words| {
        for octets in &packets {
            assert_eq!(calls.take_in(words, octets), Ok(()));
        }
    })
}

/// A packet on the numbers of another, with random metrics.
fn with_other_metrics(rng: &mut Rng, packet: &Packet) -> Vec<u8> {
    let other = |block: &Block| {
        let metrics = block.metrics.iter().map(|_| rng.u16()).collect();
        Block { ssrc: block.ssrc, begin: block.begin, metrics }
    };
    let blocks = packet.blocks.iter().map(other).collect();
    Packet { sender: packet.sender, rts: packet.rts, blocks }.octets()
}

/// A packet that says of about half of the numbers of another that they are missing.
fn half_missing(rng: &mut Rng, packet: &Packet) -> Vec<u8> {
    let numbers = packet.blocks.iter().flat_map(numbers_of).filter(|_| rng.one_in(2));
    let blocks = numbers.map(|(ssrc, begin)| Block { ssrc, begin, metrics: vec![0] }).collect();
    Packet { sender: 1, rts: 1, blocks }.octets()
}

/// The numbers of a block.
fn numbers_of(block: &Block) -> Vec<Number> {
    let number = |j| block.begin.wrapping_add(j as u16);
    (0..block.metrics.len()).map(|j| (block.ssrc, number(j))).collect()
}

/// Asks for each number of a packet that was taken in.
fn status(name: &str, shape: (u32, u16)) -> Row {
    let packet = packet_of(shape);
    let numbers: Vec<Number> = packet.blocks.iter().flat_map(numbers_of).collect();
    let prepare = |calls: SentCalls| {
        let mut words = registered(calls, &packet);
        calls.take_in(&mut words, &packet.octets()).expect("a good packet");
        words
    };
    let calls = (SentCalls::product(), BASELINE);
    row(name, calls, TIMES * numbers.len(), prepare, |calls, words| {
        for _ in 0..TIMES {
            for &(ssrc, number) in &numbers {
                black_box(calls.status(words, ssrc, number).expect("registered"));
            }
        }
    })
}
