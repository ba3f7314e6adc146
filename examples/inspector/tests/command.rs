//! The program as a shell calls it: its exit status, its messages and the file that it draws.

use std::fs;
use std::io::Write;
use std::path::{Path, PathBuf};
use std::process::{Command, Output, Stdio};

const PACKET: &str = "8bcd0006000000f100000a01fffd00040000c2000000e00000050000\n";

fn inspector(arguments: &[&str]) -> Command {
    let mut command = Command::new(env!("CARGO_BIN_EXE_inspector"));
    command.args(arguments).stdin(Stdio::piped()).stdout(Stdio::piped()).stderr(Stdio::piped());
    command
}

fn run(arguments: &[&str], input: &str) -> Output {
    let mut child = inspector(arguments).spawn().expect("the program starts");
    // A program that refuses its arguments may end before it has read its input.
    let _ = child.stdin.take().expect("a pipe").write_all(input.as_bytes());
    child.wait_with_output().expect("the program ends")
}

/// A file that is not there yet.
fn fresh(name: &str) -> PathBuf {
    let file = Path::new(env!("CARGO_TARGET_TMPDIR")).join(name);
    let _ = fs::remove_file(&file);
    file
}

fn said(octets: &[u8]) -> &str {
    std::str::from_utf8(octets).expect("plain text")
}

#[test]
fn wrong_arguments_end_with_2() {
    for (arguments, message) in [
        (vec!["--svg"], "--svg needs a file"),
        (vec!["--png", "a.png"], "unknown argument '--png'"),
        (vec!["a.hex"], "unknown argument 'a.hex'"),
    ] {
        let output = run(&arguments, PACKET);
        assert_eq!(output.status.code(), Some(2), "{arguments:?}");
        assert!(said(&output.stderr).contains(message), "{arguments:?}");
        assert!(output.stdout.is_empty(), "{arguments:?}");
    }
}

#[test]
fn help_ends_with_0() {
    let output = run(&["--help"], "");
    assert_eq!(output.status.code(), Some(0));
    assert!(said(&output.stdout).starts_with("usage: inspector"));
    assert!(output.stderr.is_empty());
}

#[test]
fn a_file_that_cannot_be_written_ends_with_1() {
    let file = fresh("no such folder").join("a.svg");
    let file = file.to_str().expect("plain text");
    let output = run(&["--svg", file], PACKET);
    assert_eq!(output.status.code(), Some(1));
    assert!(said(&output.stderr).contains(file));
    assert!(said(&output.stdout).contains("line 1: 28 octets"));
}

#[test]
fn the_text_is_the_same_with_a_drawing() {
    let file = fresh("same.svg");
    let output = run(&["--svg", file.to_str().expect("plain text")], PACKET);
    assert_eq!(output.status.code(), Some(0));
    assert_eq!(output.stdout, run(&[], PACKET).stdout);
    assert!(fs::read_to_string(file).expect("a drawing").contains(">1 CCFB packet on 1 stream<"));
}

#[test]
fn all_is_drawn_though_nobody_reads_the_text() {
    let file = fresh("unread.svg");
    let mut child =
        inspector(&["--svg", file.to_str().expect("plain text")]).spawn().expect("it starts");
    drop(child.stdout.take());
    let input = PACKET.repeat(3);
    child.stdin.take().expect("a pipe").write_all(input.as_bytes()).expect("it is read");
    assert_eq!(child.wait().expect("it ends").code(), Some(0));
    assert!(fs::read_to_string(file).expect("a drawing").contains(">3 CCFB packets on 1 stream<"));
}

#[test]
fn a_refused_packet_is_not_drawn() {
    let file = fresh("refused.svg");
    let output = run(&["--svg", file.to_str().expect("plain text")], "8bcd0000\n");
    assert_eq!(
        said(&output.stdout),
        "line 1: 4 octets, refused 21: packet shorter than 12 octets\n"
    );
    assert!(fs::read_to_string(file).expect("a drawing").contains(">No CCFB packet<"));
}

#[test]
fn the_feedback_of_a_compound_datagram_is_drawn() {
    let file = fresh("compound.svg");
    let report_and_name = "80c90001000000f1 81ca0003000000f10103626f78000000";
    let arguments = ["--svg", file.to_str().expect("plain text")];
    let output = run(&arguments, &format!("{report_and_name} {PACKET}"));
    assert_eq!(output.status.code(), Some(0));
    let text = said(&output.stdout);
    assert!(text.contains("\nline 1: 52 octets, 3 packets\n  RR (type 201), 8 octets\n"));
    assert!(text.contains("\n  CCFB (type 205, FMT 11), 28 octets from 000000f1"));
    assert!(fs::read_to_string(file).expect("a drawing").contains(">1 CCFB packet on 1 stream<"));
}
