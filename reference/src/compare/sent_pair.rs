//! A sender's store of ours and one of the reference, given the same calls.

use super::{numbered, Hex, Mismatch, Tally};
use crate::calls::sent::SentCalls;
use crate::calls::store::Words;
use crate::packet::parse;
use crate::rng::Rng;
use crate::sent::{Sent, Stream};
use crate::sent_words;
use crate::store::{wrapped, CELLS_OF_A_PLACE};
use std::fmt::{self, Debug, Formatter};

/// A call that can change the store.
pub enum Call {
    Register { ssrc: u32, number: u16 },
    TakeIn(Vec<u8>),
}

impl Debug for Call {
    fn fmt(&self, f: &mut Formatter) -> fmt::Result {
        match self {
            Call::Register { ssrc, number } => write!(f, "register {number} of {ssrc}"),
            Call::TakeIn(packet) => write!(f, "take in {:?}", Hex(packet)),
        }
    }
}

/// Distances from H at the edges of the window, and where a number ahead becomes one behind.
const EDGES: [i64; 10] = [1, 0, -1, -2_046, -2_047, -2_048, -2_049, 2_048, 32_767, 32_768];

/// How far past both ends of the window a close look goes.
const PAST_THE_WINDOW: i64 = 20;

pub struct Pair<'a> {
    calls: &'a SentCalls,
    pub words: Words,
    pub model: Sent,
}

impl<'a> Pair<'a> {
    pub fn fresh(calls: &'a SentCalls, places: usize) -> Pair<'a> {
        Pair::lent(calls, Words::fresh(places))
    }

    /// A store of 1 to 16 places with any content.
    pub fn lent(calls: &'a SentCalls, words: Words) -> Pair<'a> {
        let model = sent_words::read(&words.places, &words.cells).expect("1 to 16 places");
        Pair { calls, words, model }
    }

    /// Compares the answer of a call. A refused one must change no word, and one that takes in no
    /// place.
    pub fn answer(&mut self, tally: &mut Tally, call: &Call) -> Result<(), Mismatch> {
        let reference = numbered(match call {
            Call::Register { ssrc, number } => self.model.register(*ssrc, *number),
            Call::TakeIn(packet) => self.model.take_in(packet),
        });
        let places_before = self.words.places.clone();
        let before = reference.is_err().then(|| self.words.clone());
        let ours = match call {
            Call::Register { ssrc, number } => self.calls.register(&mut self.words, *ssrc, *number),
            Call::TakeIn(packet) => self.calls.take_in(&mut self.words, packet),
        };
        tally.same(call, ours, reference)?;
        if let Call::TakeIn(_) = call {
            tally.same(&("places", call), &self.words.places, &places_before)?;
        }
        match before {
            Some(before) => tally.same(&("refused", call), self.words == before, true),
            None => Ok(()),
        }
    }

    /// As `answer`, and then asks for numbers at the edges of the window, beside those of the call,
    /// and anywhere.
    pub fn call(&mut self, tally: &mut Tally, rng: &mut Rng, call: &Call) -> Result<(), Mismatch> {
        self.answer(tally, call)?;
        for (ssrc, begin, count) in ranges(call) {
            let last = begin.wrapping_add(count);
            let mut numbers = vec![rng.u16(), begin.wrapping_sub(1), begin, last];
            numbers.extend([last.wrapping_sub(1), last.wrapping_add(1)]);
            if let Some(stream) = self.model.stream(ssrc) {
                let highest = stream.highest;
                numbers.extend(EDGES.map(|distance| wrapped(highest + distance)));
                let mut below = |most| rng.below(most) as i64;
                numbers.extend([40, 600, 2_048].map(|most| wrapped(highest - below(most))));
            }
            numbers
                .extend((0..8).map(|_| begin.wrapping_add(rng.below(1 + u64::from(count)) as u16)));
            for number in numbers {
                self.status(tally, call, ssrc, number)?;
            }
        }
        Ok(())
    }

    fn status(
        &self,
        tally: &mut Tally,
        call: &Call,
        ssrc: u32,
        number: u16,
    ) -> Result<(), Mismatch> {
        let ours = self.calls.status(&self.words, ssrc, number);
        let reference = numbered(self.model.status(ssrc, number));
        tally.same(&("status", ssrc, number, "after", call), ours, reference)
    }

    /// As `call`, and looks at every word: only places of the call's streams change, and every
    /// window reads as it should. Asks for every number of every window, and some past it.
    pub fn call_closely(
        &mut self,
        tally: &mut Tally,
        rng: &mut Rng,
        call: &Call,
    ) -> Result<(), Mismatch> {
        let before = self.words.clone();
        self.call(tally, rng, call)?;
        let streams: Vec<u32> = ranges(call).into_iter().map(|(ssrc, _, _)| ssrc).collect();
        let of_call = |place: &Option<Stream>| {
            place.as_ref().is_some_and(|stream| streams.contains(&stream.ssrc))
        };
        for (k, place) in self.model.places().iter().enumerate() {
            let ring = CELLS_OF_A_PLACE * k..CELLS_OF_A_PLACE * (k + 1);
            let same = self.words.places[k] == before.places[k]
                && self.words.cells[ring.clone()] == before.cells[ring];
            tally.same(&("place", k, "changed by", call), same || of_call(place), true)?;
        }
        self.windows(tally, call)
    }

    /// Compares every cell of every window.
    pub fn windows(&self, tally: &mut Tally, call: &Call) -> Result<(), Mismatch> {
        let ours = sent_words::read(&self.words.places, &self.words.cells).expect("the same shape");
        for (k, (ours, place)) in ours.places().iter().zip(self.model.places()).enumerate() {
            let reading = |place: &Option<Stream>| {
                place.as_ref().map(|held| (held.ssrc, wrapped(held.highest), held.window()))
            };
            tally.same(&("place", k, "after", call), reading(ours), reading(place))?;
            let Some(stream) = place else {
                continue;
            };
            let lowest = stream.highest + 1 - CELLS_OF_A_PLACE as i64;
            for full in lowest - PAST_THE_WINDOW..=stream.highest + PAST_THE_WINDOW {
                self.status(tally, call, stream.ssrc, wrapped(full))?;
            }
        }
        Ok(())
    }
}

/// The ranges of numbers that a call names: SSRC, first number and count.
fn ranges(call: &Call) -> Vec<(u32, u16, u16)> {
    match call {
        Call::Register { ssrc, number } => vec![(*ssrc, *number, 1)],
        Call::TakeIn(packet) => {
            let blocks = parse(packet).map_or(Vec::new(), |packet| packet.blocks);
            blocks.iter().map(|b| (b.ssrc, b.begin, b.metrics.len() as u16)).collect()
        }
    }
}
