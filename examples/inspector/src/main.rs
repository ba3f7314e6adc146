//! Reads lines of hex from standard input, an RTCP datagram each: a CCFB packet as `ccfbline`
//! prints it, or several packets of any types. Shows each CCFB packet in readable form, or why it
//! is refused, and other packets in a line each. The time in a cell is how long before RTS that
//! number arrived. A line `gap N` or `refused N` of `ccfbline` is put into words. With `--svg FILE`
//! it also draws the CCFB packets.

mod datagram;
mod element;
mod hex;
mod lines;
mod options;
mod page;
mod panel;
mod scale;
mod show;
mod streams;
mod strip;
mod walk;

use options::Asked;
use std::io::{self, Write};
use std::path::Path;
use std::process::ExitCode;
use streams::Streams;

/// The exit status after wrong arguments.
const BAD_ARGUMENTS: u8 = 2;

fn main() -> ExitCode {
    let end = match options::asked(std::env::args_os().skip(1)) {
        Ok(Asked::Help) => io::stdout().write_all(options::HELP.as_bytes()),
        Ok(Asked::Inspect { svg: None }) => {
            lines::inspect(io::stdin().lock(), io::stdout(), |_| {})
        }
        Ok(Asked::Inspect { svg: Some(file) }) => show_and_draw(&file),
        Err(fault) => {
            eprintln!("inspector: {fault} (--help says how to call it)");
            return ExitCode::from(BAD_ARGUMENTS);
        }
    };
    match end {
        // The reader of our output may stop early.
        Err(error) if error.kind() != io::ErrorKind::BrokenPipe => {
            eprintln!("inspector: {error}");
            ExitCode::FAILURE
        }
        _ => ExitCode::SUCCESS,
    }
}

/// Draws all packets, also if the reader of the text stops early.
fn show_and_draw(file: &Path) -> io::Result<()> {
    let mut streams = Streams::default();
    let output = WhileRead(io::stdout());
    lines::inspect(io::stdin().lock(), output, |packet| streams.take(packet))?;
    std::fs::write(file, page::draw(&streams))
        .map_err(|error| io::Error::other(format!("{}: {error}", file.display())))
}

/// Passes octets on until their reader stops, and drops the rest.
struct WhileRead<W>(W);

impl<W: Write> Write for WhileRead<W> {
    fn write(&mut self, octets: &[u8]) -> io::Result<usize> {
        match self.0.write(octets) {
            Err(error) if error.kind() == io::ErrorKind::BrokenPipe => Ok(octets.len()),
            end => end,
        }
    }

    fn flush(&mut self) -> io::Result<()> {
        match self.0.flush() {
            Err(error) if error.kind() == io::ErrorKind::BrokenPipe => Ok(()),
            end => end,
        }
    }
}
