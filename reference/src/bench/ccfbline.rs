//! The program on a million records; a step is a record.

use super::{row, Row};
use crate::arrival_file::HEADER;
use crate::program;
use std::fs::File;
use std::path::Path;
use std::process::{Command, Stdio};
use std::{env, fs, process};

const RECORDS: u32 = 1_000_000;

/// Four streams in turn, in order, with a copy now and then.
fn file() -> Vec<u8> {
    let mut file = HEADER.to_vec();
    for i in 0..RECORDS {
        file.extend((i % 4).to_be_bytes());
        file.extend(((i / 4 - i / 400) as u16).to_be_bytes());
        file.extend([(i % 3) as u8, 1]);
        file.extend((65 * i).to_be_bytes());
    }
    file
}

pub fn rows() -> Vec<Row> {
    let baseline = program::baseline();
    let ours = Some(program::product()).filter(|program| program.is_file());
    let path = env::temp_dir().join(format!("ccfbline-bench-{}", process::id()));
    fs::write(&path, file()).expect("a file of a million records");
    let work = |program: &Path, input: &mut File| {
        let input = Stdio::from(input.try_clone().expect("the file"));
        let output = Command::new(program).stdin(input).output().expect("the program");
        let lines = output.stdout;
        let good = lines.starts_with(b"8bcd") && lines.ends_with(b"\ngap 0\n");
        assert!(good, "{}", program.display());
    };
    let programs = (ours.as_deref(), baseline.as_path());
    let open = |_| File::open(&path).expect("the file");
    let row = row("ccfbline, a million records", programs, RECORDS as usize, open, work);
    fs::remove_file(&path).expect("the file");
    vec![row]
}
