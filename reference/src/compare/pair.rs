//! A store of ours and one of the reference, given the same calls.

use super::{numbered, Mismatch, Tally};
use crate::calls::store::{CcfbArrival, StoreCalls, Words};
use crate::lent;
use crate::metric::Arrived;
use crate::store::{Store, Stream, CELLS_OF_A_PLACE};

/// A call that can change the store.
#[derive(Clone, Copy, Debug)]
pub enum Call {
    /// Where the time is unknown, `idle` is passed for it; its value must not matter.
    Arrive {
        ssrc: u32,
        number: u16,
        arrived: Arrived,
        idle: u32,
    },
    Forget {
        ssrc: u32,
    },
}

pub struct Pair<'a> {
    calls: &'a StoreCalls,
    pub words: Words,
    pub model: Store,
}

impl<'a> Pair<'a> {
    pub fn fresh(calls: &'a StoreCalls, places: usize) -> Pair<'a> {
        let model = Store::fresh(places).expect("1 to 16 places");
        Pair { calls, words: Words::fresh(places), model }
    }

    /// A store of 1 to 16 places with any content.
    pub fn lent(calls: &'a StoreCalls, words: Words) -> Pair<'a> {
        let model = lent::read(&words.places, &words.cells).expect("1 to 16 places");
        Pair { calls, words, model }
    }

    /// Compares the answer of a call: for an arrival also its kind and how many numbers it passed
    /// over. Returns whether the call was accepted.
    fn answer(&mut self, tally: &mut Tally, call: Call) -> Result<bool, Mismatch> {
        match call {
            Call::Arrive { ssrc, number, arrived, idle } => {
                let ours = self.calls.arrive(&mut self.words, ssrc, number, arrived, idle);
                let reference = numbered(self.model.arrive(ssrc, number, arrived));
                tally.same(&call, ours, reference.map(CcfbArrival::from))?;
                Ok(reference.is_ok())
            }
            Call::Forget { ssrc } => {
                let ours = self.calls.forget(&mut self.words, ssrc);
                let reference = numbered(self.model.forget(ssrc));
                tally.same(&call, ours, reference)?;
                Ok(reference.is_ok())
            }
        }
    }

    /// As `answer`, then compares the stream and H of each place and of one past them, and the
    /// oldest number of the call's stream.
    pub fn call(&mut self, tally: &mut Tally, call: Call) -> Result<bool, Mismatch> {
        let accepted = self.answer(tally, call)?;
        for k in 0..=self.words.places.len() {
            self.place(tally, &call, k)?;
        }
        let (Call::Arrive { ssrc, .. } | Call::Forget { ssrc }) = call;
        let of_stream = |held: &Option<Stream>| held.as_ref().is_some_and(|held| held.ssrc == ssrc);
        if let Some(k) = self.model.places().iter().position(of_stream) {
            self.oldest(tally, &call, k)?;
        }
        Ok(accepted)
    }

    fn place(&self, tally: &mut Tally, call: &Call, k: usize) -> Result<(), Mismatch> {
        let ours = self.calls.place(&self.words, k);
        tally.same(&("place", k, "after", call), ours, numbered(self.model.place(k)))
    }

    fn oldest(&self, tally: &mut Tally, call: &Call, k: usize) -> Result<(), Mismatch> {
        let ours = self.calls.oldest(&self.words, k);
        tally.same(&("oldest of place", k, "after", call), ours, numbered(self.model.oldest(k)))
    }

    /// As `call`, and looks at every word: a refused call changes none, an accepted one changes
    /// one place, and every window reads as it should. Compares the oldest number of every place.
    pub fn call_closely(&mut self, tally: &mut Tally, call: Call) -> Result<(), Mismatch> {
        let before = self.words.clone();
        let accepted = self.call(tally, call)?;
        let touched = touched_places(&before, &self.words);
        let most = usize::from(accepted);
        tally.same(&("places touched by", call, touched), touched <= most, true)?;
        self.place(tally, &call, usize::MAX)?;
        for k in (0..=self.words.places.len()).chain([usize::MAX]) {
            self.oldest(tally, &call, k)?;
        }
        self.windows(tally, &call)
    }

    /// Compares every cell of every window.
    pub fn windows(&self, tally: &mut Tally, call: &Call) -> Result<(), Mismatch> {
        let ours = lent::read(&self.words.places, &self.words.cells).expect("the same shape");
        for (k, held) in self.model.places().iter().enumerate() {
            let ours = ours.places()[k].as_ref().map(|stream| stream.window());
            let reference = held.as_ref().map(|stream| stream.window());
            let (Some(ours), Some(reference)) = (&ours, &reference) else {
                tally.same(&("place", k, "after", call), ours, reference)?;
                continue;
            };
            for (back, (ours, reference)) in ours.iter().zip(reference).enumerate() {
                tally.same(&("place", k, "cell of H -", back, call), ours, reference)?;
            }
        }
        Ok(())
    }
}

/// How many places have a changed word, in `places` or in `cells`.
fn touched_places(before: &Words, after: &Words) -> usize {
    let places = before.places.iter().zip(&after.places).map(|(a, b)| a != b);
    let rings_after = after.cells.chunks(CELLS_OF_A_PLACE);
    let cells = before.cells.chunks(CELLS_OF_A_PLACE).zip(rings_after).map(|(a, b)| a != b);
    places.zip(cells).filter(|(place, cells)| *place || *cells).count()
}
