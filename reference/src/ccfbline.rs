//! What `ccfbline` prints for an arrival file.

use crate::arrival_file::{records, Record};
use crate::cutting::Request;
use crate::refusal::Refusal;
use crate::store::{wrapped, ArrivalKind, Store, Stream};
use crate::writer::{write, Report};

const SENDER: u32 = 0x0000_00F1;
const LIMIT: usize = 1_200;
const PLACES: usize = 4;

/// How many numbers of each stream are reported.
const NEWEST: u16 = 4;

/// The lines, each with its newline.
pub fn printed(file: &[u8]) -> String {
    match lines(file) {
        Err(refusal) => format!("refused {}\n", refusal.number()),
        Ok(lines) => lines,
    }
}

fn lines(file: &[u8]) -> Result<String, Refusal> {
    let records = records(file)?;
    let mut store = Store::fresh(PLACES)?;
    let kinds = take(&mut store, &records)?;
    let packets = packets(&store, &records)?;
    let lines: String = packets.iter().map(|packet| line(packet)).collect();
    Ok(lines + &format!("gap {}\n", gap(&kinds)))
}

/// Takes each record for an arrival. Returns what the accepted ones were.
fn take(store: &mut Store, records: &[Record]) -> Result<Vec<ArrivalKind>, Refusal> {
    let mut kinds = Vec::new();
    for record in records {
        match store.arrive(record.ssrc, record.number, record.arrived) {
            Ok(kind) => kinds.push(kind),
            Err(Refusal::NoFreePlace | Refusal::TooOld) => {}
            Err(refusal) => return Err(refusal),
        }
    }
    Ok(kinds)
}

/// The most numbers that one of the arrivals passed over.
fn gap(kinds: &[ArrivalKind]) -> u16 {
    let passed_over = kinds.iter().map(|kind| match kind {
        ArrivalKind::Ahead { passed_over } => *passed_over,
        ArrivalKind::First | ArrivalKind::Late | ArrivalKind::Copy => 0,
    });
    passed_over.max().unwrap_or(0)
}

fn packets(store: &Store, records: &[Record]) -> Result<Vec<Vec<u8>>, Refusal> {
    let last_known = records.iter().rev().find_map(|record| record.arrived.time);
    let requests: Vec<Request> = store.places().iter().flatten().map(newest).collect();
    let report = Report { sender: SENDER, rts: last_known.unwrap_or(0), limit: LIMIT };
    write(store, report, &requests, usize::MAX)
}

fn newest(stream: &Stream) -> Request {
    let begin = wrapped(stream.highest + 1 - i64::from(NEWEST));
    Request { ssrc: stream.ssrc, begin, count: NEWEST }
}

fn line(packet: &[u8]) -> String {
    let hex: String = packet.iter().map(|octet| format!("{octet:02x}")).collect();
    hex + "\n"
}

#[cfg(test)]
mod tests {
    use super::*;
    use crate::arrival_file::HEADER;

    #[test]
    fn case_p() {
        let file = b"ARL\0\x01\
            \x00\x00\x0a\x01\xff\xfe\x02\x01\x00\x04\x80\x00\
            \x00\x00\x0a\x01\x00\x00\x03\x01\x00\x05\x00\x00";
        let packet = "8bcd0006000000f100000a01fffd00040000c2000000e00000050000";
        assert_eq!(printed(file), format!("{packet}\ngap 1\n"));
        assert_eq!(printed(&file[..5]), "gap 0\n");
        assert_eq!(printed(&file[..4]), "refused 11\n");
        assert_eq!(printed(&file[..28]), "refused 13\n");
    }

    /// The last line for a file with these records: SSRC and number.
    fn last_line(records: &[(u8, u16)]) -> String {
        let mut file = HEADER.to_vec();
        for (ssrc, number) in records {
            let [high, low] = number.to_be_bytes();
            file.extend([0, 0, 0, *ssrc, high, low, 0, 0, 0, 0, 0, 0]);
        }
        printed(&file).lines().last().unwrap().to_string()
    }

    #[test]
    fn gaps() {
        for (records, gap) in [
            (&[(1, 9)][..], 0),
            (&[(1, 9), (1, 10)], 0),
            (&[(1, 9), (1, 12), (1, 10), (1, 10)], 2),
            (&[(1, 0), (1, 32_767)], 32_766),
            (&[(1, 0), (1, 32_768)], 0),
            (&[(1, 0), (1, 100), (1, 103)], 99),
            (&[(1, 0), (2, 0), (2, 51), (1, 11)], 50),
            (&[(1, 0), (2, 0), (3, 0), (4, 0), (5, 0), (5, 9), (4, 3)], 2),
        ] {
            assert_eq!(last_line(records), format!("gap {gap}"), "{records:?}");
        }
    }
}
