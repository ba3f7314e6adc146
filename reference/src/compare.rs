//! The comparison of the reference with libccfb.a, or with the baseline, subject by subject.

mod ccfbline;
mod datagram;
mod datagrams;
mod feedback;
mod lent_words;
mod metric;
mod packet;
mod packets;
mod pair;
mod requests;
mod sent;
mod sent_pair;
mod store;
mod writer;

use crate::calls::metric::MetricCalls;
use crate::calls::packet::PacketCalls;
use crate::calls::sent::SentCalls;
use crate::calls::store::StoreCalls;
use crate::calls::writer::WriterCalls;
use crate::refusal::Refusal;
use crate::{baseline, program, rng};
use std::fmt::{self, Debug, Formatter};

/// The line that reports a mismatch.
pub type Mismatch = String;

/// What is compared with the reference.
#[derive(Clone, Copy, PartialEq, Eq)]
pub enum With {
    Product,
    Baseline,
}

impl With {
    fn of<T>(self, product: Option<T>, baseline: T) -> Option<T> {
        match self {
            With::Product => product,
            With::Baseline => Some(baseline),
        }
    }
}

/// How much of a value a mismatch shows, in octets of text.
const MOST_SHOWN: usize = 3_000;

/// Counts the comparisons of a subject, and says which one failed.
pub struct Tally {
    name: &'static str,
    pub seed: u64,
    pub case: u64,
    comparisons: u64,
}

impl Tally {
    /// Compares one answer.
    pub fn same<T: PartialEq + Debug>(
        &mut self,
        input: &dyn Debug,
        ours: T,
        reference: T,
    ) -> Result<(), Mismatch> {
        self.comparisons += 1;
        if ours == reference {
            return Ok(());
        }
        Err(self.mismatch(input, &ours, &reference))
    }

    /// Takes an answer that must not be a refusal.
    pub fn accepted<T>(&mut self, input: &dyn Debug, ours: Result<T, u8>) -> Result<T, Mismatch> {
        self.comparisons += 1;
        ours.map_err(|refusal| self.mismatch(input, &refusal, &"no refusal"))
    }

    fn mismatch(&self, input: &dyn Debug, ours: &dyn Debug, reference: &dyn Debug) -> Mismatch {
        let shown = |value: &dyn Debug| {
            let text = format!("{value:?}");
            text.get(..MOST_SHOWN).map_or(text.clone(), |start| format!("{start}..."))
        };
        let (input, ours, reference) = (shown(input), shown(ours), shown(reference));
        let Tally { name, seed, case, .. } = self;
        format!(
            "MISMATCH {name} seed {seed} case {case}: input {input} ours {ours} reference {reference}"
        )
    }
}

/// Octets, shown as hex without spaces.
#[derive(Clone, Copy, PartialEq, Eq)]
struct Hex<'a>(&'a [u8]);

impl Debug for Hex<'_> {
    fn fmt(&self, f: &mut Formatter) -> fmt::Result {
        write!(f, "{} octets ", self.0.len())?;
        self.0.iter().try_for_each(|octet| write!(f, "{octet:02x}"))
    }
}

/// An output before the call.
fn unwritten(room: usize) -> Vec<u8> {
    (0..room).map(|at| (at * 7 + 1) as u8).collect()
}

/// The same output after a call that wrote these octets, or nothing if it was refused.
fn output(room: usize, written: &Result<Vec<u8>, u8>) -> Vec<u8> {
    let mut out = unwritten(room);
    if let Ok(written) = written {
        out[..written.len()].copy_from_slice(written);
    }
    out
}

/// The reference's answer, with the refusal given by its number.
fn numbered<T>(answer: Result<T, Refusal>) -> Result<T, u8> {
    answer.map_err(Refusal::number)
}

/// The names of the subjects, in order.
pub const SUBJECTS: [&str; 7] =
    ["metric", "store", "packet", "writer", "datagram", "sent", "ccfbline"];

/// Runs a subject: the line to print, a mismatch, or `None` if this build cannot reach it.
pub fn run(name: &str, with: With) -> Option<Result<String, Mismatch>> {
    let name = SUBJECTS.into_iter().find(|subject| *subject == name)?;
    let mut tally = Tally { name, seed: rng::seed(), case: 0, comparisons: 0 };
    let tally = &mut tally;
    let result = match name {
        "metric" => {
            metric::run(&with.of(MetricCalls::product(), baseline::metric::BASELINE)?, tally)
        }
        "store" => store::run(&with.of(StoreCalls::product(), baseline::store::BASELINE)?, tally),
        "packet" => {
            packet::run(&with.of(PacketCalls::product(), baseline::packet::BASELINE)?, tally)
        }
        "writer" => {
            writer::run(&with.of(WriterCalls::product(), baseline::writer::BASELINE)?, tally)
        }
        "sent" => sent::run(&with.of(SentCalls::product(), baseline::sent::BASELINE)?, tally),
        "datagram" => datagram::run(&datagram::Calls::of(with)?, tally),
        _ => {
            let product = cfg!(feature = "ccfbline").then(program::product);
            ccfbline::run(&with.of(product, program::baseline())?, tally)
        }
    };
    Some(result.map(|()| format!("ok {name}: {} comparisons", tally.comparisons)))
}
