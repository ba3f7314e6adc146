//! The lines of the input.

use crate::{datagram, hex, strip, walk};
use ccfb::{Datagram, Packet, Refusal, MOST_PASSED_OVER};
use std::io::{self, BufRead, Write};
use std::str::FromStr;

/// Shows every line that is not empty, under its number from 1, and gives each accepted packet to
/// `take`. The legend of the strips comes before the first datagram that has one.
pub fn inspect(
    input: impl BufRead,
    mut output: impl Write,
    mut take: impl FnMut(&Packet),
) -> io::Result<()> {
    let mut legend_due = true;
    for (line, number) in input.split(b'\n').zip(1..) {
        let line = line?;
        let line = line.trim_ascii_end();
        if line.is_empty() {
            continue;
        }
        if let Some(said) = said_by_ccfbline(line) {
            writeln!(output, "line {number}: ccfbline {said}")?;
            continue;
        }
        let mut octets = Vec::new();
        match read(line, &mut octets) {
            Ok(datagram) => {
                let accepted = datagram.feedback().flatten();
                if legend_due && accepted.clone().any(|packet| has_numbers(&packet)) {
                    writeln!(output, "{}", strip::LEGEND)?;
                    legend_due = false;
                }
                writeln!(output, "line {number}: {}", datagram::readable(&datagram))?;
                accepted.for_each(|packet| take(&packet));
            }
            Err(wrong) => writeln!(output, "line {number}: {wrong}")?,
        }
    }
    output.flush()
}

/// What `ccfbline` says in a line `refused N` or `gap N`, in words.
fn said_by_ccfbline(line: &[u8]) -> Option<String> {
    let refused = refused_file(line).map(|refusal| refusal.to_string());
    refused.or_else(|| gap(line).map(|gap| format!("gap {gap}: {}", passed_over(gap))))
}

/// The datagram of a line, read from its octets. The error says in words why there is none.
fn read<'a>(line: &[u8], octets: &'a mut Vec<u8>) -> Result<Datagram<'a>, String> {
    *octets = hex::octets(line).map_err(|fault| format!("not hex: {fault}"))?;
    Datagram::read(octets).map_err(|refusal| {
        let fault = walk::fault(octets).map_or(String::new(), |fault| format!("\n  {fault}"));
        format!("{} octets, {refusal}{fault}", octets.len())
    })
}

/// The refusal in the line `refused N`, which `ccfbline` prints for a bad arrival file.
fn refused_file(line: &[u8]) -> Option<Refusal> {
    Refusal::of_number(number_after(b"refused ", line)?)
}

/// The count in the line `gap N`, which `ccfbline` prints after the packets.
fn gap(line: &[u8]) -> Option<u16> {
    number_after(b"gap ", line).filter(|gap| *gap <= MOST_PASSED_OVER)
}

/// The number that follows a word, if that is all of the line.
fn number_after<N: FromStr>(word: &[u8], line: &[u8]) -> Option<N> {
    std::str::from_utf8(line.strip_prefix(word)?).ok()?.parse().ok()
}

/// What a gap means, in words.
fn passed_over(gap: u16) -> String {
    match gap {
        0 => "no number was passed over".to_string(),
        1 => "at most 1 number was passed over at once".to_string(),
        _ => format!("at most {gap} numbers were passed over at once"),
    }
}

fn has_numbers(packet: &Packet) -> bool {
    packet.blocks().any(|block| block.count() > 0)
}

#[cfg(test)]
mod tests {
    use super::*;

    const NO_BLOCK: &str = "8bcd0002000000f100050000";
    const ONE_LOST: &str = "8bcd0005000000f10000000700090001000000000005 0000";

    fn shown(input: &str) -> (String, usize) {
        let (mut output, mut taken) = (Vec::new(), 0);
        inspect(input.as_bytes(), &mut output, |_| taken += 1).expect("memory does not fail");
        (String::from_utf8(output).expect("plain text"), taken)
    }

    #[test]
    fn the_legend_comes_once_before_the_first_strip() {
        let (text, taken) = shown(&format!("{NO_BLOCK}\n{ONE_LOST}\n{ONE_LOST}\n"));
        let starts: Vec<&str> = text.lines().map(|line| line.split(' ').next().unwrap()).collect();
        let legends: Vec<usize> = (0..starts.len()).filter(|&at| starts[at] == "strips:").collect();
        assert_eq!(legends, [1]);
        assert_eq!(taken, 3);
    }

    #[test]
    fn no_strip_no_legend() {
        let (text, taken) = shown(&format!("{NO_BLOCK}\n"));
        assert_eq!(text, "line 1: 12 octets from 000000f1, RTS 00050000 (5.000 s), no block\n");
        assert_eq!(taken, 1);
    }

    #[test]
    fn the_packets_of_a_datagram_are_taken_one_by_one() {
        let (text, taken) = shown(&format!("80cb0000 {ONE_LOST} 8bcd0000 {NO_BLOCK}\n"));
        assert_eq!(taken, 2);
        assert!(text.starts_with(strip::LEGEND));
        assert!(text.contains("\nline 1: 44 octets, 4 packets\n  BYE (type 203), 4 octets\n"));
    }

    #[test]
    fn a_refused_packet_is_not_taken() {
        let (text, taken) = shown("8bcd0000\nrefused 13\nrefused 99\n");
        assert_eq!(taken, 0);
        let lines: Vec<&str> = text.lines().collect();
        assert_eq!(lines[0], "line 1: 4 octets, refused 21: packet shorter than 12 octets");
        assert!(lines[1].starts_with("line 2: ccfbline refused 13: "));
        assert_eq!(lines[2], "line 3: not hex: 'r' in column 1");
    }

    #[test]
    fn the_gap_that_ccfbline_prints_is_put_into_words() {
        let (text, taken) = shown("gap 0\ngap 1\ngap 32766\ngap 32767\ngap\n");
        assert_eq!(taken, 0);
        let lines: Vec<&str> = text.lines().collect();
        assert_eq!(lines[0], "line 1: ccfbline gap 0: no number was passed over");
        assert_eq!(lines[1], "line 2: ccfbline gap 1: at most 1 number was passed over at once");
        assert!(lines[2].ends_with(": at most 32766 numbers were passed over at once"));
        assert_eq!(lines[3..], [4, 5].map(|line| format!("line {line}: not hex: 'g' in column 1")));
    }

    #[test]
    fn nothing_is_taken_of_octets_that_are_no_datagram() {
        let (text, taken) = shown(&format!("{ONE_LOST} 80cb\n"));
        assert_eq!(taken, 0);
        let fault = "at octet 24: a header has 4 octets, 2 left";
        let refused = "refused 31: not a valid RTCP datagram";
        assert_eq!(text, format!("line 1: 26 octets, {refused}\n  {fault}\n"));
    }
}
