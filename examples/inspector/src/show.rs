//! A packet in readable form.

use crate::strip;
use ccfb::{Mark, Metric, Packet};

/// How many numbers a row shows, a cell each, and how wide what a cell says is.
const CELLS_OF_A_ROW: usize = 5;
const CELL_WIDTH: usize = 11;

/// Of RTS, and of arrival time offsets.
const COUNTS_OF_A_SECOND: f64 = 65_536.0;
const OFFSETS_OF_A_MILLISECOND: f64 = 1.024;

/// The sender and RTS, then each block.
pub fn packet(packet: &Packet) -> String {
    let (octets, sender, rts) = (packet.octets().len(), packet.sender(), packet.rts());
    let seconds = f64::from(rts) / COUNTS_OF_A_SECOND;
    let mut text = format!("{octets} octets from {sender:08x}, RTS {rts:08x} ({seconds:.3} s)");
    if packet.blocks().len() == 0 {
        text += ", no block";
    }
    for block in packet.blocks() {
        let metrics: Vec<(u16, Metric)> = block.metrics().collect();
        let range = range(block.begin(), block.count());
        let sums = sums(metrics.iter().map(|(_, metric)| *metric));
        text += &format!("\n  stream {:08x}, {range}{sums}", block.ssrc());
        for row in strip::rows(&metrics).chain(table(&metrics)) {
            text += &format!("\n    {row}");
        }
    }
    text
}

fn range(begin: u16, count: u16) -> String {
    match count {
        0 => format!("no number, begin_seq {begin}"),
        _ => span(begin, begin.wrapping_add(count - 1), count.into()),
    }
}

/// So many numbers, the first and the last of them named.
pub fn span(first: u16, last: u16, count: usize) -> String {
    match count {
        1 => format!("{first}, 1 number"),
        _ => format!("{first} to {last}, {count} numbers"),
    }
}

/// How many numbers are missing, and how many carry each mark. Sums of 0 are left out.
pub fn sums(metrics: impl Iterator<Item = Metric> + Clone) -> String {
    let marks = [None, Some(Mark::NotEct), Some(Mark::Ect1), Some(Mark::Ect0), Some(Mark::Ce)];
    let sum = |mark: Option<Mark>| {
        let name = mark.map_or("missing".to_string(), |mark| mark.to_string());
        match metrics.clone().filter(|metric| metric.mark() == mark).count() {
            0 => None,
            sum => Some(format!("{sum} {name}")),
        }
    };
    let sums: Vec<String> = marks.into_iter().filter_map(sum).collect();
    if sums.is_empty() {
        String::new()
    } else {
        format!(": {}", sums.join(", "))
    }
}

/// The rows of the table, each with its first number in front.
fn table(metrics: &[(u16, Metric)]) -> impl Iterator<Item = String> + '_ {
    metrics.chunks(CELLS_OF_A_ROW).map(|row| {
        let cells: String = row.iter().map(|(_, metric)| cell(*metric)).collect();
        format!("{:>5}:{}", row[0].0, cells.trim_end())
    })
}

/// What a metric says, in a cell of fixed width.
fn cell(metric: Metric) -> String {
    let said = match metric {
        Metric::NotReceived => "missing".to_string(),
        Metric::Received { offset, .. } => format!("{:.1} ms", milliseconds(offset)),
        Metric::OverRange { .. } => "over range".to_string(),
        Metric::NoTime { .. } => "no time".to_string(),
    };
    let congestion = if metric.mark() == Some(Mark::Ce) { "CE" } else { "" };
    format!("{said:>CELL_WIDTH$} {congestion:<2}")
}

/// An arrival time offset, which counts 1/1024 s, in ms.
pub fn milliseconds(offset: u16) -> f64 {
    f64::from(offset) / OFFSETS_OF_A_MILLISECOND
}
