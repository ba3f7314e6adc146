//! The program `ccfbline`: what it prints, octet by octet, for files of every kind.

use super::{Hex, Mismatch, Tally};
use crate::arrival_file::{HEADER, RECORD_OCTETS};
use crate::ccfbline;
use crate::program;
use crate::rng::{rounds, Rng};
use std::path::Path;

/// Where in a record its fields are.
const MARK_AT: usize = 6;
const FLAG_AT: usize = 7;
const TIME_AT: usize = 8;

/// Case P: two arrivals of a stream, with a lost number between them.
const CASE_P: [u8; 29] = *b"ARL\0\x01\
    \x00\x00\x0a\x01\xff\xfe\x02\x01\x00\x04\x80\x00\
    \x00\x00\x0a\x01\x00\x00\x03\x01\x00\x05\x00\x00";

/// How many sequence numbers there are.
const NUMBERS: u64 = 65_536;

/// Steps from a number to the next one: where the gap gets another digit, and at both ends of what
/// is ahead, too old and in the window.
const STEPS: [u16; 18] = [
    0, 1, 2, 10, 11, 100, 101, 1_000, 1_001, 2_048, 10_000, 10_001, 32_766, 32_767, 32_768, 63_488,
    63_489, 65_535,
];

pub fn run(program: &Path, tally: &mut Tally) -> Result<(), Mismatch> {
    let packet = "8bcd0006000000f100000a01fffd00040000c2000000e00000050000";
    let case_p = format!("{packet}\ngap 1\n");
    tally.same(&"case P", program::printed(program, &CASE_P), Ok(case_p))?;
    near_case_p(program, tally)?;
    two_steps(program, tally)?;
    for _ in 0..rounds(3_000) {
        tally.case += 1;
        let mut rng = Rng::of_case(tally.seed, tally.case);
        let records = rng.below(60);
        let mut file = random_file(&mut rng, records);
        if rng.one_in(3) {
            for _ in 0..1 + rng.below(3) {
                put_fault(&mut rng, &mut file);
            }
        }
        compare(program, tally, &file)?;
    }
    one_jump(program, tally)?;
    long_files(program, tally)
}

fn compare(program: &Path, tally: &mut Tally, file: &[u8]) -> Result<(), Mismatch> {
    tally.same(&Hex(file), program::printed(program, file), Ok(ccfbline::printed(file)))
}

/// Case P cut at each octet, and with each octet damaged.
fn near_case_p(program: &Path, tally: &mut Tally) -> Result<(), Mismatch> {
    for length in 0..CASE_P.len() {
        compare(program, tally, &CASE_P[..length])?;
    }
    for at in 0..CASE_P.len() {
        for flip in [1, 2, 4, 0x20, 0x80, 0xFF] {
            let mut file = CASE_P;
            file[at] ^= flip;
            compare(program, tally, &file)?;
            compare(program, tally, &file[..file.len() - 1])?;
        }
    }
    Ok(())
}

/// Three arrivals of one stream, with every pair of these steps between them.
fn two_steps(program: &Path, tally: &mut Tally) -> Result<(), Mismatch> {
    for first in STEPS {
        for second in STEPS {
            let mut file = HEADER.to_vec();
            let mut number = 60_000u16;
            for step in [0, first, second] {
                number = number.wrapping_add(step);
                put_record(&mut file, 7, number, 0, None);
            }
            compare(program, tally, &file)?;
        }
    }
    Ok(())
}

fn put_record(file: &mut Vec<u8>, ssrc: u32, number: u16, mark: u8, time: Option<u32>) {
    file.extend(ssrc.to_be_bytes());
    file.extend(number.to_be_bytes());
    file.extend([mark, u8::from(time.is_some())]);
    file.extend(time.unwrap_or(0).to_be_bytes());
}

/// A file without faults: one to nine streams that wrap, jump, repeat and come late.
fn random_file(rng: &mut Rng, records: u64) -> Vec<u8> {
    let mut newest: Vec<(u32, u16)> =
        (0..1 + rng.below(9)).map(|i| (rng.u32() ^ i as u32, rng.u16())).collect();
    if rng.one_in(2) {
        newest[0].1 = 65_530;
    }
    // Another one for each file, so that gaps have all sizes.
    let longest = if rng.one_in(2) { NUMBERS } else { 1 << rng.below(16) };
    let no_time = rng.one_in(8);
    let mut time = rng.u32();
    let mut file = HEADER.to_vec();
    for _ in 0..records {
        let stream = rng.below(newest.len() as u64) as usize;
        let (ssrc, number) = &mut newest[stream];
        time = time.wrapping_add(rng.below(100_000) as u32);
        let step = random_step(rng, longest);
        let next = number.wrapping_add(step as u16);
        if step < 32_768 {
            *number = next;
        }
        let known = !no_time && !rng.one_in(6);
        put_record(&mut file, *ssrc, next, rng.below(4) as u8, known.then_some(time));
    }
    file
}

/// A step to the next number, a jump of at most `longest`, or a step back.
fn random_step(rng: &mut Rng, longest: u64) -> u64 {
    match rng.below(16) {
        0 | 1 => 1 + rng.below(longest),
        2 if longest == NUMBERS => rng.pick(&[2_048, 32_767, 32_768]),
        3 => NUMBERS - rng.below(2_100),
        4 => NUMBERS - 2_048,
        5..=7 => NUMBERS - rng.below(4),
        _ => 1,
    }
}

fn put_fault(rng: &mut Rng, file: &mut Vec<u8>) {
    let records = file.len().saturating_sub(HEADER.len()) / RECORD_OCTETS;
    let record = HEADER.len() + RECORD_OCTETS * rng.below(records.max(1) as u64) as usize;
    match rng.below(8) {
        0 => file.truncate(rng.below(file.len() as u64 + 1) as usize),
        1 => file.extend(std::iter::repeat_n(rng.u16() as u8, 1 + rng.below(11) as usize)),
        2 if file.len() >= HEADER.len() => {
            file[rng.below(HEADER.len() as u64) as usize] ^= 1 << rng.below(8);
        }
        _ if record + RECORD_OCTETS > file.len() => {}
        2 | 3 => file[record + MARK_AT] = 4 + rng.below(252) as u8,
        4 => file[record + FLAG_AT] = 2 + rng.below(254) as u8,
        5 => file[record + FLAG_AT] = 0,
        6 => file[record + TIME_AT + rng.below(4) as usize] ^= 1 << rng.below(8),
        _ => file[record + MARK_AT + rng.below(2) as usize] ^= 1 << rng.below(8),
    }
}

/// Files longer than any buffer, in order but for one jump, which is the gap wherever it is.
fn one_jump(program: &Path, tally: &mut Tally) -> Result<(), Mismatch> {
    const RECORDS: u16 = 20_000;
    for at in [1, 4_096, 5_461, RECORDS / 2, RECORDS - 1] {
        let mut file = HEADER.to_vec();
        for i in 0..RECORDS {
            let jumped = if i < at { 0 } else { 1_234 };
            put_record(&mut file, 7, 60_000u16.wrapping_add(i + jumped), 0, None);
        }
        compare(program, tally, &file)?;
    }
    Ok(())
}

/// Files longer than any buffer, up to a million records, whole and with a fault at the end.
fn long_files(program: &Path, tally: &mut Tally) -> Result<(), Mismatch> {
    let mut rng = Rng::of_case(tally.seed, 0);
    for records in [341, 342, 5_461, 5_462, 20_000, 1_000_000] {
        let mut file = random_file(&mut rng, records);
        compare(program, tally, &file)?;
        file.pop();
        compare(program, tally, &file)?;
        let last_record = file.len() + 1 - RECORD_OCTETS;
        file[last_record + MARK_AT] = 4;
        file.push(0);
        compare(program, tally, &file)?;
    }
    Ok(())
}
