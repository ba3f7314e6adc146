//! Writer: the answer and every octet, the output read back as a cutting, the fewest packets.

use super::lent_words::random_words;
use super::requests::{good_requests, put_fault, Size};
use super::{numbered, output, unwritten, Hex, Mismatch, Tally};
use crate::calls::store::Words;
use crate::calls::writer::WriterCalls;
use crate::cutting::{broken_rule, fewest_by_table, fewest_of_all, Block, Packet, Request};
use crate::lent::{self, place_word};
use crate::packet::parse;
use crate::refusal::Refusal;
use crate::rng::{rounds, Rng};
use crate::store::{Store, CELLS_OF_A_PLACE, MOST_PLACES};
use crate::writer::{write, Report, LEAST_LIMIT, MOST_LIMIT, MOST_REQUESTS};

/// How many limits there are.
const LIMITS: u64 = (MOST_LIMIT - LEAST_LIMIT + 1) as u64;

/// Room for a packet of 24 octets for each number and each request.
const LONGEST_OUTPUT: usize = 24 * (MOST_REQUESTS * CELLS_OF_A_PLACE + MOST_REQUESTS);

pub fn run(calls: &WriterCalls, tally: &mut Tally) -> Result<(), Mismatch> {
    edges(calls, tally)?;
    wrong_shapes(calls, tally)?;
    every_limit(calls, tally)?;
    for _ in 0..rounds(100) {
        tally.case += 1;
        let mut rng = Rng::of_case(tally.seed, tally.case);
        let places = 1 + rng.below(MOST_PLACES as u64) as usize;
        let mut lent = match rng.below(3) {
            0 => {
                let highest: Vec<u16> = (0..MOST_PLACES).map(|_| rng.u16()).collect();
                Lent::of_highest(calls, &mut rng, &highest)
            }
            _ => Lent::new(calls, random_words(&mut rng, places)),
        };
        lent.random_lists(tally, &mut rng)?;
    }
    Ok(())
}

/// The words of a store, and how it reads.
struct Lent<'a> {
    calls: &'a WriterCalls,
    words: Words,
    store: Store,
}

impl<'a> Lent<'a> {
    fn new(calls: &'a WriterCalls, words: Words) -> Lent<'a> {
        let store = lent::read(&words.places, &words.cells).expect("1 to 16 places");
        Lent { calls, words, store }
    }

    /// Streams 1, 2 and so on with these H.
    fn of_highest(calls: &'a WriterCalls, rng: &mut Rng, highest: &[u16]) -> Lent<'a> {
        let mut words = random_words(rng, highest.len());
        let places = highest.iter().zip(1..);
        words.places = places.map(|(highest, ssrc)| place_word(ssrc, *highest)).collect();
        Lent::new(calls, words)
    }

    /// Compares answer and output at output lengths that differ by so much from what is needed.
    fn compare(
        &self,
        tally: &mut Tally,
        report: Report,
        requests: &[Request],
        about: &[isize],
    ) -> Result<(), Mismatch> {
        let whole = write(&self.store, report, requests, usize::MAX);
        let need = whole.as_ref().map_or(40, |packets| packets.iter().map(Vec::len).sum());
        for more in about {
            let room = need.saturating_add_signed(*more);
            let reference = match (&whole, room < need) {
                (Ok(_), true) => Err(Refusal::OutputTooShort.number()),
                _ => numbered(whole.clone()),
            };
            let mut out = unwritten(room);
            let ours = self.calls.write(&self.words, report, requests, &mut out);
            let packets = reference.as_ref().map_or(0, Vec::len);
            let reference = reference.map(|packets| packets.concat());
            let expected = output(room, &reference);
            let answer = reference.map(|octets| (packets, octets.len()));
            let input = (report, requests, "room", room, "places", &self.words.places);
            tally.same(&("write", input), ours, answer)?;
            tally.same(&("written", input), Hex(&out), Hex(&expected))?;
        }
        Ok(())
    }

    /// The blocks in our output must be a cutting that keeps the packet rules, with as many
    /// packets as the call answers, which must be the fewest that the search finds.
    fn compare_cutting(
        &self,
        tally: &mut Tally,
        report: Report,
        requests: &[Request],
        size: Size,
    ) -> Result<(), Mismatch> {
        let mut out = vec![0; LONGEST_OUTPUT];
        let limit = report.rounded_limit();
        let Ok((packets, octets)) = self.calls.write(&self.words, report, requests, &mut out)
        else {
            return Ok(());
        };
        let cutting = cutting_in(&out[..octets], requests);
        let input = (report, requests);
        tally.same(&("packets", input), Some(packets), cutting.as_ref().map(Vec::len))?;
        let broken = cutting.and_then(|cutting| broken_rule(requests, limit, &cutting));
        tally.same(&("rule broken by", input), broken, None)?;
        let fewest = match size {
            Size::Tiny => fewest_of_all(requests, limit),
            Size::Small => fewest_by_table(requests, limit),
            Size::Any => return Ok(()),
        };
        tally.same(&("fewest packets", input), Some(packets), fewest)
    }

    /// Many lists of requests, some with faults.
    fn random_lists(&mut self, tally: &mut Tally, rng: &mut Rng) -> Result<(), Mismatch> {
        for _ in 0..30 {
            let size = rng.pick(&[Size::Tiny, Size::Tiny, Size::Small, Size::Any]);
            let most = if matches!(size, Size::Tiny) { 3 } else { MOST_REQUESTS };
            let mut requests = good_requests(rng, &self.store, most, size);
            let report = random_report(rng, size);
            self.compare(tally, report, &requests, &[-1, 0, rng.below(20) as isize])?;
            self.compare_cutting(tally, report, &requests, size)?;
            for _ in 0..1 + rng.below(3) {
                put_fault(rng, &mut requests);
                self.compare(tally, report, &requests, &[-40, 0])?;
            }
        }
        Ok(())
    }
}

fn random_report(rng: &mut Rng, size: Size) -> Report {
    let limit = match (size, rng.below(16)) {
        (_, 0) => rng.pick(&[0, 4, 20, 23, 24, 9_000, 9_001, 9_004, 65_560, usize::MAX]),
        (Size::Tiny, _) => LEAST_LIMIT + rng.below(40) as usize,
        (Size::Small, _) => LEAST_LIMIT + rng.below(300) as usize,
        (Size::Any, 1..=4) => LEAST_LIMIT + rng.below(LIMITS) as usize,
        (Size::Any, _) => rng.pick(&[24, 27, 28, 100, 1_200, 1_203, 9_000]),
    };
    Report { sender: rng.u32(), rts: rng.u32(), limit }
}

/// The cutting that packets back to back make, with each block taken for the request of its SSRC;
/// `None` if the last packet does not end with the octets, or a block is of no request.
fn cutting_in(mut octets: &[u8], requests: &[Request]) -> Option<Vec<Packet>> {
    let mut cutting = Vec::new();
    while !octets.is_empty() {
        let field = octets.get(2..4)?;
        let length = 4 * (usize::from(field[0]) * 256 + usize::from(field[1]) + 1);
        let packet = parse(octets.get(..length)?).ok()?;
        let mut blocks = Vec::new();
        for block in packet.blocks {
            let request = requests.iter().position(|request| request.ssrc == block.ssrc)?;
            let count = block.metrics.len() as u16;
            blocks.push(Block { request, begin: block.begin, count });
        }
        cutting.push(blocks);
        octets = &octets[length..];
    }
    Some(cutting)
}

/// Ranges at the edges of the window, and ranges of 5 and 3 with their limits and outputs.
fn edges(calls: &WriterCalls, tally: &mut Tally) -> Result<(), Mismatch> {
    let mut rng = Rng::of_case(tally.seed, 0);
    let request = |ssrc, begin, count| Request { ssrc, begin, count };
    let report = |limit| Report { sender: 0xF1, rts: 0x0005_0000, limit };
    for highest in [0u16, 1, 2_046, 2_047, 2_048, 40_000, 65_535] {
        let lent = Lent::of_highest(calls, &mut rng, &[highest]);
        for back in [0u16, 1, 2, 2_046, 2_047, 2_048, 32_767, 32_768, 65_535] {
            for count in [0, 1, 2, 3, back, back.wrapping_add(1), back.wrapping_add(2), 65_535] {
                let requests = [request(1, highest.wrapping_sub(back), count)];
                lent.compare(tally, report(1_200), &requests, &[0])?;
            }
        }
    }
    let lent = Lent::of_highest(calls, &mut rng, &[2, 2]);
    let requests = [request(1, 65_534, 5), request(2, 0, 3)];
    let around: Vec<isize> = (-60..=8).collect();
    for limit in LEAST_LIMIT..=60 {
        lent.compare(tally, report(limit), &requests, &around)?;
        lent.compare_cutting(tally, report(limit), &requests, Size::Tiny)?;
    }
    Ok(())
}

/// Wrong shapes are refused with 4, before a bad limit and too many requests.
fn wrong_shapes(calls: &WriterCalls, tally: &mut Tally) -> Result<(), Mismatch> {
    let requests = [Request { ssrc: 1, begin: 0, count: 0 }; MOST_REQUESTS + 1];
    let ring = CELLS_OF_A_PLACE;
    let bad_store = Err(Refusal::BadStore.number());
    for (places, cells) in
        [(0, 0), (0, ring), (1, ring - 1), (1, 2 * ring), (2, ring), (17, 17 * ring)]
    {
        let words = Words { places: vec![place_word(1, 0); places], cells: vec![0; cells] };
        for (limit, n) in [(1_200, 1), (23, 1), (1_200, MOST_REQUESTS + 1), (1_200, 0)] {
            let report = Report { sender: 1, rts: 2, limit };
            let mut out = unwritten(100);
            let ours = calls.write(&words, report, &requests[..n], &mut out);
            tally.same(&("write", places, cells, report, n), ours, bad_store)?;
            tally.same(&("written", places, cells), Hex(&out), Hex(&unwritten(100)))?;
        }
    }
    Ok(())
}

/// Every limit from 20 to 9,004, on lists that need several packets at most limits.
fn every_limit(calls: &WriterCalls, tally: &mut Tally) -> Result<(), Mismatch> {
    let mut rng = Rng::of_case(tally.seed, 1);
    let lent = Lent::of_highest(calls, &mut rng, &[5, 65_535, 1_000]);
    for limit in 20..=9_004 {
        let report = Report { limit, ..random_report(&mut rng, Size::Any) };
        let size = if limit < 600 { Size::Small } else { Size::Any };
        let requests = good_requests(&mut rng, &lent.store, 3, size);
        lent.compare(tally, report, &requests, &[0, -1])?;
    }
    Ok(())
}
