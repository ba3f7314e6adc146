//! Datagrams: of every kind of packet, whole, damaged and cut, and of random words.

use super::datagrams::{
    damage_end, other_packet, put_fault, random_datagram, short_headers, Datagram, FAULTS,
};
use super::lent_words::random_words;
use super::packet::{self, LONGEST};
use super::packets::packet_of;
use super::requests::{good_requests, Size};
use super::{numbered, Hex, Mismatch, Tally, With};
use crate::baseline;
use crate::calls::datagram::DatagramCalls;
use crate::calls::packet::PacketCalls;
use crate::calls::store::Words;
use crate::calls::writer::WriterCalls;
use crate::cutting::Request;
use crate::datagram::{feedback, next_packet, readable, RtcpPacket};
use crate::lent;
use crate::packet::{BLOCK_HEADER_OCTETS, EMPTY_PACKET_OCTETS};
use crate::refusal::Refusal;
use crate::rng::{rounds, Rng};
use crate::store::MOST_PLACES;
use crate::writer::{Report, LEAST_LIMIT, MOST_REQUESTS};

/// A CCFB packet without blocks.
const EMPTY_FEEDBACK: [u8; 12] = [0x8B, 205, 0, 2, 0, 0, 0, 1, 0, 0, 0, 2];

/// The most blocks that a CCFB packet can have.
const MOST_BLOCKS: usize = (LONGEST - EMPTY_PACKET_OCTETS) / BLOCK_HEADER_OCTETS;

/// Numbers that a cut to 16 or 32 bits makes small, and the largest.
const HUGE: [usize; 4] = [65_536, 1 << 32, usize::MAX - 3, usize::MAX];

/// The calls on a datagram, the reader's for its parts, and the writer's to make some.
pub struct Calls {
    datagram: DatagramCalls,
    packet: PacketCalls,
    writer: WriterCalls,
}

impl Calls {
    pub fn of(with: With) -> Option<Calls> {
        Some(Calls {
            datagram: with.of(DatagramCalls::product(), baseline::datagram::BASELINE)?,
            packet: with.of(PacketCalls::product(), baseline::packet::BASELINE)?,
            writer: with.of(WriterCalls::product(), baseline::writer::BASELINE)?,
        })
    }
}

pub fn run(calls: &Calls, tally: &mut Tally) -> Result<(), Mismatch> {
    every_header(calls, tally)?;
    large(calls, tally)?;
    let kinds: [(u64, Case); 5] = [
        (20_000, damaged),
        (100, cut_at_each_octet),
        (100_000, random_headers),
        (10_000, random_octets),
        (200, written),
    ];
    for (usual, case) in kinds {
        for _ in 0..rounds(usual) {
            tally.case += 1;
            let mut rng = Rng::of_case(tally.seed, tally.case);
            case(calls, tally, &mut rng)?;
        }
    }
    Ok(())
}

type Case = fn(&Calls, &mut Tally, &mut Rng) -> Result<(), Mismatch>;

/// Asks everything about a datagram.
fn compare(
    calls: &Calls,
    tally: &mut Tally,
    rng: &mut Rng,
    datagram: &[u8],
) -> Result<(), Mismatch> {
    let feedback = feedback(datagram);
    let count = feedback.as_ref().map(Vec::len).map_err(|refusal| refusal.number());
    let ours = calls.datagram.feedback_count(datagram);
    tally.same(&("feedback count", Hex(datagram)), ours, count)?;
    match feedback {
        Ok(feedback) => parts(calls, tally, rng, datagram, &feedback)?,
        Err(refusal) => no_part(calls, tally, rng, datagram, refusal)?,
    }
    walk(calls, tally, datagram, 0)?;
    let length = datagram.len();
    let within = rng.below(length as u64 + 1) as usize;
    for from in [within, length, length + 1, rng.pick(&HUGE)] {
        walk(calls, tally, datagram, from)?;
    }
    Ok(())
}

/// Every CCFB packet, and some that are not there.
fn parts(
    calls: &Calls,
    tally: &mut Tally,
    rng: &mut Rng,
    datagram: &[u8],
    feedback: &[RtcpPacket],
) -> Result<(), Mismatch> {
    // A question walks the whole datagram, so only some packets of a long one are asked for.
    let one_in = 1 + feedback.len() as u64 / 200;
    for (k, packet) in feedback.iter().enumerate() {
        if !rng.one_in(one_in) {
            continue;
        }
        part(calls, tally, datagram, k, feedback)?;
        if rng.one_in(32) {
            packet::compare(&calls.packet, tally, rng, packet.octets)?;
        }
    }
    let count = feedback.len();
    for k in [count, count + 1, rng.pick(&HUGE)] {
        part(calls, tally, datagram, k, feedback)?;
    }
    Ok(())
}

/// Where CCFB packet `k` is, and what the reader answers of the octets there.
fn part(
    calls: &Calls,
    tally: &mut Tally,
    datagram: &[u8],
    k: usize,
    feedback: &[RtcpPacket],
) -> Result<(), Mismatch> {
    let reference = numbered(readable(feedback, k));
    let ours = calls.datagram.feedback(datagram, k);
    let read = ours.and_then(|(at, length)| {
        // Octets that are not there are read as none.
        let part = datagram.get(at..at.saturating_add(length)).unwrap_or_default();
        calls.packet.read(part)
    });
    let fields = reference.as_ref().map(|(_, content)| packet::fields(content)).map_err(|r| *r);
    tally.same(&("read", k, Hex(datagram)), read, fields)?;
    let place = reference.map(|(packet, _)| (packet.at, packet.octets.len()));
    tally.same(&("feedback", k, Hex(datagram)), ours, place)
}

/// A datagram that is refused has no parts.
fn no_part(
    calls: &Calls,
    tally: &mut Tally,
    rng: &mut Rng,
    datagram: &[u8],
    refusal: Refusal,
) -> Result<(), Mismatch> {
    for k in [0, 1, rng.below(20) as usize, usize::MAX] {
        let ours = calls.datagram.feedback(datagram, k);
        tally.same(&("feedback", k, Hex(datagram)), ours, Err(refusal.number()))?;
    }
    Ok(())
}

/// The packets by `next_packet` up to the first refusal.
fn walk(calls: &Calls, tally: &mut Tally, datagram: &[u8], from: usize) -> Result<(), Mismatch> {
    let mut at = from;
    loop {
        let start = at;
        let packet = numbered(next_packet(datagram, start));
        let behind = packet.map_or(start, |packet| start + packet.octets.len());
        let fields = |p: RtcpPacket| (p.packet_type(), p.format(), p.at, p.octets.len());
        let ours = calls.datagram.next_packet(datagram, &mut at);
        let input = ("next packet", start, Hex(datagram));
        tally.same(&input, (ours, at), (packet.map(fields), behind))?;
        if packet.is_err() {
            return Ok(());
        }
    }
}

/// A short datagram of which each half-word of each header goes through every value.
fn every_header(calls: &Calls, tally: &mut Tally) -> Result<(), Mismatch> {
    let mut rng = Rng::of_case(tally.seed, 0);
    let report = [0x80, 201, 0, 1, 0, 0, 0, 1];
    let goodbye = [0x80, 203, 0, 0];
    let datagram = [&report[..], &EMPTY_FEEDBACK, &goodbye].concat();
    for at in [0, 2, 8, 10, 20, 22] {
        let mut changed = datagram.clone();
        for value in 0..=u16::MAX {
            changed[at..at + 2].copy_from_slice(&value.to_be_bytes());
            compare(calls, tally, &mut rng, &changed)?;
        }
    }
    Ok(())
}

/// The longest packets, before and behind others, and a great many of the shortest.
fn large(calls: &Calls, tally: &mut Tally) -> Result<(), Mismatch> {
    let mut rng = Rng::of_case(tally.seed, 1);
    let longest_report = [vec![0x80, 200, 0xFF, 0xFF], vec![0x80; LONGEST - 4]].concat();
    let longest_feedback = packet_of(&mut rng, &[0; MOST_BLOCKS]).octets();
    let shortest = [0x80, 203, 0, 0, 0x8B, 205, 0, 0].repeat(10_000);
    let datagrams = [
        [&longest_report[..], &EMPTY_FEEDBACK].concat(),
        [&longest_feedback[..], &EMPTY_FEEDBACK].concat(),
        [&EMPTY_FEEDBACK[..], &longest_feedback].concat(),
        [&shortest[..], &EMPTY_FEEDBACK].concat(),
    ];
    for mut datagram in datagrams {
        compare(calls, tally, &mut rng, &datagram)?;
        datagram.truncate(datagram.len() - 4);
        compare(calls, tally, &mut rng, &datagram)?;
    }
    Ok(())
}

/// A datagram with each fault in each of its headers, with its end damaged, and with several
/// faults at once.
fn damaged(calls: &Calls, tally: &mut Tally, rng: &mut Rng) -> Result<(), Mismatch> {
    let Datagram { octets, starts } = random_datagram(rng);
    compare(calls, tally, rng, &octets)?;
    for start in &starts {
        for fault in FAULTS {
            let mut damaged = octets.clone();
            put_fault(rng, &mut damaged, *start, fault);
            compare(calls, tally, rng, &damaged)?;
        }
    }
    for faults in [0, 0, 0, 2, 2, 3] {
        let mut damaged = octets.clone();
        for _ in 0..faults.min(starts.len()) {
            let (start, fault) = (rng.pick(&starts), rng.pick(&FAULTS));
            put_fault(rng, &mut damaged, start, fault);
        }
        if faults == 0 || rng.one_in(2) {
            damage_end(rng, &mut damaged);
        }
        compare(calls, tally, rng, &damaged)?;
    }
    Ok(())
}

/// Every prefix of a datagram.
fn cut_at_each_octet(calls: &Calls, tally: &mut Tally, rng: &mut Rng) -> Result<(), Mismatch> {
    let octets = random_datagram(rng).octets;
    (0..=octets.len()).try_for_each(|kept| compare(calls, tally, rng, &octets[..kept]))
}

fn random_headers(calls: &Calls, tally: &mut Tally, rng: &mut Rng) -> Result<(), Mismatch> {
    let count = rng.below(20);
    let octets = short_headers(rng, count);
    compare(calls, tally, rng, &octets)
}

fn random_octets(calls: &Calls, tally: &mut Tally, rng: &mut Rng) -> Result<(), Mismatch> {
    let octets: Vec<u8> = (0..rng.below(40)).map(|_| rng.below(256) as u8).collect();
    compare(calls, tally, rng, &octets)
}

/// Some reports of a store, behind other packets.
fn written(calls: &Calls, tally: &mut Tally, rng: &mut Rng) -> Result<(), Mismatch> {
    let places = 1 + rng.below(MOST_PLACES as u64) as usize;
    let lent = random_words(rng, places);
    let store = lent::read(&lent.places, &lent.cells).expect("1 to 16 places");
    for _ in 0..10 {
        let requests = good_requests(rng, &store, MOST_REQUESTS, Size::Small);
        let limit = LEAST_LIMIT + rng.below(60) as usize;
        let report = Report { sender: rng.u32(), rts: rng.u32(), limit };
        let others: Vec<u8> = (0..rng.below(4)).flat_map(|_| other_packet(rng)).collect();
        behind_others(calls, tally, &others, &lent, report, &requests)?;
    }
    Ok(())
}

/// The packets that the writer wrote are found back to back behind the others, as many as it
/// answered.
fn behind_others(
    calls: &Calls,
    tally: &mut Tally,
    others: &[u8],
    lent: &Words,
    report: Report,
    requests: &[Request],
) -> Result<(), Mismatch> {
    let numbers: usize = requests.iter().map(|request| usize::from(request.count)).sum();
    let mut out = vec![0; LEAST_LIMIT * (numbers + requests.len())];
    let answer = calls.writer.write(lent, report, requests, &mut out);
    let (packets, octets) = tally.accepted(&("write", report, requests), answer)?;
    let mut at = others.len();
    let datagram = [others, &out[..octets]].concat();
    let input = ("written", report, requests, Hex(&datagram));
    tally.same(&input, calls.datagram.feedback_count(&datagram), Ok(packets))?;
    for k in 0..packets {
        let part = calls.datagram.feedback(&datagram, k);
        let (start, length) = tally.accepted(&(input, k), part)?;
        tally.same(&(input, k), start, at)?;
        at += length;
    }
    tally.same(&input, at, datagram.len())?;
    walk(calls, tally, &datagram, 0)
}
