//! The program: one pass over standard input in fixed memory.

use super::metric::CE;
use super::{store, writer};
use crate::calls::store::Words;
use crate::cutting::Request;
use crate::refusal::Refusal;
use crate::writer::Report;
use std::io::{self, Read, Write};

const MAGIC: [u8; 3] = *b"ARL";
const VERSION: [u8; 2] = [0, 1];
const HEADER_OCTETS: usize = MAGIC.len() + VERSION.len();
const RECORD_OCTETS: usize = 12;

/// How many octets are read at once: whole records.
const CHUNK: usize = RECORD_OCTETS * 4_096;

const PLACES: usize = 4;
const SENDER: u32 = 0xF1;
const LIMIT: usize = 1_200;

/// How many numbers of each stream are reported.
const NEWEST: u16 = 4;

/// The store, the last known time, and the most numbers that an arrival passed over.
struct State {
    words: Words,
    rts: u32,
    gap: u16,
}

impl State {
    /// Takes whole records.
    fn take(&mut self, records: &[u8]) -> Result<(), Refusal> {
        let (records, _) = records.as_chunks();
        for [s0, s1, s2, s3, n0, n1, mark, flag, t0, t1, t2, t3] in records.iter().copied() {
            let ssrc = u32::from_be_bytes([s0, s1, s2, s3]);
            let number = u16::from_be_bytes([n0, n1]);
            let time = match (flag, u32::from_be_bytes([t0, t1, t2, t3])) {
                (1, time) => Some(time),
                (0, 0) => None,
                _ => return Err(Refusal::BadRecord),
            };
            if mark > CE {
                return Err(Refusal::BadRecord);
            }
            self.rts = time.unwrap_or(self.rts);
            let filled = store::filled_word(mark, time.is_some(), time.unwrap_or(0));
            let Words { places, cells } = &mut self.words;
            // A record that the store refuses, with 2 or 3, is skipped.
            if let Ok(arrival) = store::record(places, cells, ssrc, number, mark, filled) {
                self.gap = self.gap.max(arrival.passed_over);
            }
        }
        Ok(())
    }

    fn lines(&self) -> String {
        let held = self.words.places.iter().filter(|word| store::is_held(**word));
        let newest = |word: &u64| {
            let (ssrc, highest) = store::stream(*word);
            Request { ssrc, begin: highest.wrapping_sub(NEWEST - 1), count: NEWEST }
        };
        let requests: Vec<Request> = held.map(newest).collect();
        let report = Report { sender: SENDER, rts: self.rts, limit: LIMIT };
        let mut out = [0; LIMIT];
        let written = writer::BASELINE.write(&self.words, report, &requests, &mut out);
        let (_, octets) = written.expect("good requests");
        let mut lines: String = out[..octets].iter().map(|octet| format!("{octet:02x}")).collect();
        if !lines.is_empty() {
            lines.push('\n');
        }
        lines + &format!("gap {}\n", self.gap)
    }
}

fn read_all(input: &mut impl Read) -> io::Result<Result<String, Refusal>> {
    let mut header = Vec::new();
    input.by_ref().take(HEADER_OCTETS as u64).read_to_end(&mut header)?;
    if header.len() < HEADER_OCTETS || !header.starts_with(&MAGIC) {
        return Ok(Err(Refusal::BadFileMark));
    }
    if !header.ends_with(&VERSION) {
        return Ok(Err(Refusal::BadFileVersion));
    }
    let mut state = State { words: Words::fresh(PLACES), rts: 0, gap: 0 };
    let mut chunk = Vec::with_capacity(CHUNK);
    loop {
        chunk.clear();
        input.by_ref().take(CHUNK as u64).read_to_end(&mut chunk)?;
        if let Err(refusal) = state.take(&chunk) {
            return Ok(Err(refusal));
        }
        if chunk.len() % RECORD_OCTETS != 0 {
            return Ok(Err(Refusal::RecordCutShort));
        }
        if chunk.len() < CHUNK {
            return Ok(Ok(state.lines()));
        }
    }
}

/// Reads standard input and prints the lines.
pub fn run() -> io::Result<()> {
    let lines = match read_all(&mut io::stdin().lock())? {
        Ok(lines) => lines,
        Err(refusal) => format!("refused {}\n", refusal.number()),
    };
    io::stdout().write_all(lines.as_bytes())
}
