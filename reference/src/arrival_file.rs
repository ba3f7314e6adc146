//! The arrival file: its records, or its first fault.

use crate::metric::{Arrived, CE};
use crate::refusal::Refusal;

#[derive(Clone, Copy, Debug, PartialEq, Eq)]
pub struct Record {
    pub ssrc: u32,
    pub number: u16,
    pub arrived: Arrived,
}

/// The letters that a file starts with.
const MAGIC: [u8; 3] = *b"ARL";

/// The magic, and version 1.
pub const HEADER: [u8; 5] = *b"ARL\0\x01";

pub const RECORD_OCTETS: usize = 12;

pub fn records(file: &[u8]) -> Result<Vec<Record>, Refusal> {
    let (header, records) = file.split_at_checked(HEADER.len()).ok_or(Refusal::BadFileMark)?;
    if !header.starts_with(&MAGIC) {
        return Err(Refusal::BadFileMark);
    }
    if header != HEADER {
        return Err(Refusal::BadFileVersion);
    }
    records.chunks(RECORD_OCTETS).map(record).collect()
}

fn record(octets: &[u8]) -> Result<Record, Refusal> {
    let [s0, s1, s2, s3, n0, n1, mark, flag, t0, t1, t2, t3] =
        octets.try_into().map_err(|_| Refusal::RecordCutShort)?;
    let time = match (flag, u32::from_be_bytes([t0, t1, t2, t3])) {
        (0, 0) => None,
        (1, time) => Some(time),
        _ => return Err(Refusal::BadRecord),
    };
    if mark > CE {
        return Err(Refusal::BadRecord);
    }
    let ssrc = u32::from_be_bytes([s0, s1, s2, s3]);
    Ok(Record { ssrc, number: u16::from_be_bytes([n0, n1]), arrived: Arrived { mark, time } })
}

#[cfg(test)]
mod tests {
    use super::*;

    fn refusal(records_octets: &[u8]) -> Option<Refusal> {
        records(&[&HEADER, records_octets].concat()).err()
    }

    #[test]
    fn headers() {
        assert_eq!(records(b"ARL\0"), Err(Refusal::BadFileMark));
        assert_eq!(records(b"ARl\0\x01"), Err(Refusal::BadFileMark));
        assert_eq!(records(b"ARL\x01\x01"), Err(Refusal::BadFileVersion));
        assert_eq!(records(b"ARL\0\x01"), Ok(vec![]));
    }

    #[test]
    fn faults_come_record_by_record() {
        let good = [0, 0, 0, 1, 0, 2, 3, 1, 0, 0, 0, 0];
        let bad_mark = [0, 0, 0, 1, 0, 2, 4, 1, 0, 0, 0, 0];
        let bad_flag = [0, 0, 0, 1, 0, 2, 3, 2, 0, 0, 0, 0];
        let time_of_unknown = [0, 0, 0, 1, 0, 2, 3, 0, 0, 0, 0, 1];
        assert_eq!(refusal(&good), None);
        for bad in [bad_mark, bad_flag, time_of_unknown] {
            assert_eq!(refusal(&[good, bad].concat()), Some(Refusal::BadRecord));
            assert_eq!(refusal(&bad[..11]), Some(Refusal::RecordCutShort));
            assert_eq!(refusal(&[&bad[..], &good[..3]].concat()), Some(Refusal::BadRecord));
        }
    }
}
