//! The calls of libccfb.a, each behind a safe function over slices. All unsafe code is here.
//!
//! The library needs valid pointers, and memory that a call writes must not overlap its other
//! arguments. The pointer and length of a slice, empty or not, are valid, and so is a reference.

#![allow(unsafe_code)]

use crate::memory::{Words, WordsMut};
use crate::{arrival, kind, ArrivalKind, Block, Mark, Metric, Refusal, Report, Request};
use crate::{RtcpPacket, Status, Stream, Time};

/// As `struct ccfb_arrival` of include/ccfb.h.
#[derive(Default)]
#[repr(C)]
struct Arrival {
    kind: u16,
    passed_over: u16,
}

// As in include/ccfb.h; a call writes its outputs through references.
#[rustfmt::skip]
extern "C" {
    fn ccfb_encode_metric(
        mark: u8, time_known: bool, time: u32, rts: u32, metric: &mut u16,
    ) -> u8;
    fn ccfb_decode_metric(metric: u16, kind: &mut u8, mark: &mut u8, offset: &mut u16);
    fn ccfb_arrive(
        places: *mut u64, places_len: usize, cells: *mut u64, cells_len: usize,
        ssrc: u32, number: u16, mark: u8, time_known: bool, time: u32, arrival: &mut Arrival,
    ) -> u8;
    fn ccfb_forget(
        places: *mut u64, places_len: usize, cells: *const u64, cells_len: usize, ssrc: u32,
    ) -> u8;
    fn ccfb_place(
        places: *const u64, places_len: usize, cells: *const u64, cells_len: usize,
        k: usize, ssrc: &mut u32, highest: &mut u16,
    ) -> u8;
    fn ccfb_oldest(
        places: *const u64, places_len: usize, cells: *const u64, cells_len: usize,
        k: usize, oldest: &mut u16,
    ) -> u8;
    fn ccfb_write(
        places: *const u64, places_len: usize, cells: *const u64, cells_len: usize,
        sender: u32, rts: u32, limit: usize, requests: *const Request, requests_len: usize,
        out: *mut u8, out_len: usize, packets: &mut usize, octets: &mut usize,
    ) -> u8;
    fn ccfb_read(
        packet: *const u8, len: usize, sender: &mut u32, rts: &mut u32, blocks: &mut usize,
    ) -> u8;
    fn ccfb_block(
        packet: *const u8, len: usize, k: usize, ssrc: &mut u32, begin: &mut u16, count: &mut u16,
    ) -> u8;
    fn ccfb_block_metrics(
        packet: *const u8, len: usize, k: usize,
        metrics_at: &mut usize, metrics_length: &mut usize,
    ) -> u8;
    fn ccfb_metric(
        packet: *const u8, len: usize, k: usize, j: usize,
        number: &mut u16, kind: &mut u8, mark: &mut u8, offset: &mut u16,
    ) -> u8;
    fn ccfb_first_block(packet: *const u8, len: usize, at: &mut usize) -> u8;
    fn ccfb_next_block(
        packet: *const u8, len: usize, at: &mut usize,
        ssrc: &mut u32, begin: &mut u16, count: &mut u16, metrics_at: &mut usize,
    ) -> u8;
    fn ccfb_metric_at(
        part: *const u8, len: usize, j: usize, kind: &mut u8, mark: &mut u8, offset: &mut u16,
    ) -> u8;
    fn ccfb_decode_metrics(
        part: *const u8, len: usize, kinds: *mut u8, kinds_len: usize,
        marks: *mut u8, marks_len: usize, offsets: *mut u16, offsets_len: usize,
    ) -> u8;
    fn ccfb_rewrite(
        packet: *const u8, len: usize, out: *mut u8, out_len: usize, written: &mut usize,
    ) -> u8;
    fn ccfb_feedback_count(datagram: *const u8, len: usize, count: &mut usize) -> u8;
    fn ccfb_feedback(
        datagram: *const u8, len: usize, k: usize,
        packet_at: &mut usize, packet_length: &mut usize,
    ) -> u8;
    fn ccfb_next_packet(
        datagram: *const u8, len: usize, at: &mut usize, packet_type: &mut u8, format: &mut u8,
        packet_at: &mut usize, packet_length: &mut usize,
    ) -> u8;
    fn ccfb_register(
        places: *mut u64, places_len: usize, cells: *mut u64, cells_len: usize,
        ssrc: u32, number: u16,
    ) -> u8;
    fn ccfb_take_in(
        places: *const u64, places_len: usize, cells: *mut u64, cells_len: usize,
        packet: *const u8, len: usize,
    ) -> u8;
    fn ccfb_status(
        places: *const u64, places_len: usize, cells: *const u64, cells_len: usize,
        ssrc: u32, number: u16, kind: &mut u8, mark: &mut u8, time: &mut u32,
    ) -> u8;
}

fn answer<T>(refused: u8, value: T) -> Result<T, Refusal> {
    match refused {
        0 => Ok(value),
        number => Err(Refusal::of_answer(number)),
    }
}

/// Whether the time is known, and the time.
fn flagged(time: Time) -> (bool, u32) {
    match time {
        Time::Unknown => (false, 0),
        Time::At(count) => (true, count),
    }
}

fn metric_of(kind: u8, mark: u8, offset: u16) -> Metric {
    let mark = Mark::of_bits(mark);
    match kind {
        kind::NOT_RECEIVED => Metric::NotReceived,
        kind::RECEIVED => Metric::Received { mark, offset },
        kind::OVER_RANGE => Metric::OverRange { mark },
        _ => Metric::NoTime { mark }, // kind::NO_TIME, the only other one
    }
}

fn arrival_kind_of(Arrival { kind, passed_over }: Arrival) -> ArrivalKind {
    match kind {
        arrival::FIRST => ArrivalKind::First,
        arrival::AHEAD => ArrivalKind::Ahead { passed_over },
        arrival::LATE => ArrivalKind::Late,
        _ => ArrivalKind::Copy, // arrival::COPY, the only other one
    }
}

fn status_of(kind: u8, mark: u8, time: u32) -> Status {
    let mark = Mark::of_bits(mark);
    match kind {
        kind::NOT_RECEIVED => Status::Missing,
        kind::RECEIVED => Status::Received { mark, time },
        kind::OVER_RANGE => Status::OverRange { mark },
        kind::NO_TIME => Status::NoTime { mark },
        _ => Status::NotReported, // kind::NOT_REPORTED, the only other one
    }
}

/// The call refuses only a mark above 3, and there is no such `Mark`.
pub fn encode_metric(mark: Mark, time: Time, rts: u32) -> u16 {
    let (time_known, time) = flagged(time);
    let mut metric = 0;
    // SAFETY: the one pointer is a reference.
    unsafe { ccfb_encode_metric(mark.number(), time_known, time, rts, &mut metric) };
    metric
}

pub fn decode_metric(metric: u16) -> Metric {
    let (mut kind, mut mark, mut offset) = (0, 0, 0);
    // SAFETY: the pointers are references.
    unsafe { ccfb_decode_metric(metric, &mut kind, &mut mark, &mut offset) };
    metric_of(kind, mark, offset)
}

pub fn arrive(
    words: WordsMut<'_>,
    ssrc: u32,
    number: u16,
    mark: Mark,
    time: Time,
) -> Result<ArrivalKind, Refusal> {
    let WordsMut { places, cells } = words;
    let (time_known, time) = flagged(time);
    let mut arrival = Arrival::default();
    // SAFETY: each pointer is passed with the length of its slice; the other is a reference.
    let refused = unsafe {
        ccfb_arrive(
            places.as_mut_ptr(),
            places.len(),
            cells.as_mut_ptr(),
            cells.len(),
            ssrc,
            number,
            mark.number(),
            time_known,
            time,
            &mut arrival,
        )
    };
    answer(refused, arrival_kind_of(arrival))
}

pub fn forget(words: WordsMut<'_>, ssrc: u32) -> Result<(), Refusal> {
    let WordsMut { places, cells } = words;
    // SAFETY: each pointer is passed with the length of its slice.
    let refused = unsafe {
        ccfb_forget(places.as_mut_ptr(), places.len(), cells.as_ptr(), cells.len(), ssrc)
    };
    answer(refused, ())
}

pub fn place(words: Words<'_>, k: usize) -> Result<Stream, Refusal> {
    let Words { places, cells } = words;
    let (mut ssrc, mut highest) = (0, 0);
    // SAFETY: each pointer is passed with the length of its slice; the others are references.
    let refused = unsafe {
        ccfb_place(
            places.as_ptr(),
            places.len(),
            cells.as_ptr(),
            cells.len(),
            k,
            &mut ssrc,
            &mut highest,
        )
    };
    answer(refused, ())?;
    let oldest = oldest(words, k)?;
    Ok(Stream { ssrc, highest, oldest })
}

fn oldest(words: Words<'_>, k: usize) -> Result<u16, Refusal> {
    let Words { places, cells } = words;
    let mut oldest = 0;
    // SAFETY: each pointer is passed with the length of its slice; the other is a reference.
    let refused = unsafe {
        ccfb_oldest(places.as_ptr(), places.len(), cells.as_ptr(), cells.len(), k, &mut oldest)
    };
    answer(refused, oldest)
}

/// How many packets, and their total length in octets.
pub fn write(
    words: Words<'_>,
    report: Report,
    requests: &[Request],
    out: &mut [u8],
) -> Result<(usize, usize), Refusal> {
    let Words { places, cells } = words;
    let (mut packets, mut octets) = (0, 0);
    // SAFETY: each pointer is passed with the length of its slice; the others are references.
    let refused = unsafe {
        ccfb_write(
            places.as_ptr(),
            places.len(),
            cells.as_ptr(),
            cells.len(),
            report.own,
            report.rts,
            report.limit,
            requests.as_ptr(),
            requests.len(),
            out.as_mut_ptr(),
            out.len(),
            &mut packets,
            &mut octets,
        )
    };
    answer(refused, (packets, octets))
}

/// The sender, RTS and how many blocks.
pub fn read(packet: &[u8]) -> Result<(u32, u32, usize), Refusal> {
    let (mut sender, mut rts, mut blocks) = (0, 0, 0);
    // SAFETY: the pointer is passed with the length of its slice; the others are references.
    let refused =
        unsafe { ccfb_read(packet.as_ptr(), packet.len(), &mut sender, &mut rts, &mut blocks) };
    answer(refused, (sender, rts, blocks))
}

/// So many octets from `at` on. A part that the library answers with is there.
fn part_of(octets: &[u8], at: usize, length: usize) -> Option<&[u8]> {
    octets.get(at..)?.get(..length)
}

pub fn block(packet: &[u8], k: usize) -> Result<Block<'_>, Refusal> {
    let (octets, len) = (packet.as_ptr(), packet.len());
    let (mut ssrc, mut begin, mut count) = (0, 0, 0);
    // SAFETY: the pointer is passed with the length of its slice; the others are references.
    let refused = unsafe { ccfb_block(octets, len, k, &mut ssrc, &mut begin, &mut count) };
    answer(refused, ())?;
    let (mut metrics_at, mut metrics_length) = (0, 0);
    // SAFETY: as above.
    let refused =
        unsafe { ccfb_block_metrics(octets, len, k, &mut metrics_at, &mut metrics_length) };
    answer(refused, ())?;
    let part = part_of(packet, metrics_at, metrics_length).ok_or(Refusal::RunsIntoRts)?;
    Ok(Block { ssrc, begin, count, part })
}

/// Metric j of block k, with its number.
pub fn metric(packet: &[u8], k: usize, j: usize) -> Result<(u16, Metric), Refusal> {
    let (octets, len) = (packet.as_ptr(), packet.len());
    let (mut number, mut kind, mut mark, mut offset) = (0, 0, 0, 0);
    // SAFETY: the pointer is passed with the length of its slice; the others are references.
    let refused =
        unsafe { ccfb_metric(octets, len, k, j, &mut number, &mut kind, &mut mark, &mut offset) };
    answer(refused, (number, metric_of(kind, mark, offset)))
}

/// The octet where the first block starts.
pub fn first_block(packet: &[u8]) -> Result<usize, Refusal> {
    let mut at = 0;
    // SAFETY: the pointer is passed with the length of its slice; the other is a reference.
    let refused = unsafe { ccfb_first_block(packet.as_ptr(), packet.len(), &mut at) };
    answer(refused, at)
}

/// The block at `at`, which moves past it.
pub fn next_block<'a>(packet: &'a [u8], at: &mut usize) -> Result<Block<'a>, Refusal> {
    let (octets, len) = (packet.as_ptr(), packet.len());
    let (mut ssrc, mut begin, mut count, mut metrics_at) = (0, 0, 0, 0);
    // SAFETY: the pointer is passed with the length of its slice; the others are references.
    let refused = unsafe {
        ccfb_next_block(octets, len, at, &mut ssrc, &mut begin, &mut count, &mut metrics_at)
    };
    answer(refused, ())?;
    let length = 2 * usize::from(count);
    let part = part_of(packet, metrics_at, length).ok_or(Refusal::RunsIntoRts)?;
    Ok(Block { ssrc, begin, count, part })
}

/// Metric j of a part that holds the metrics of a block.
pub fn metric_at(part: &[u8], j: usize) -> Result<Metric, Refusal> {
    let (mut kind, mut mark, mut offset) = (0, 0, 0);
    // SAFETY: the pointer is passed with the length of its slice; the others are references.
    let refused =
        unsafe { ccfb_metric_at(part.as_ptr(), part.len(), j, &mut kind, &mut mark, &mut offset) };
    answer(refused, metric_of(kind, mark, offset))
}

/// All metrics of a part that holds the metrics of a block, each into its entry of the slices.
pub fn decode_metrics(
    part: &[u8],
    kinds: &mut [u8],
    marks: &mut [u8],
    offsets: &mut [u16],
) -> Result<(), Refusal> {
    // SAFETY: each pointer is passed with the length of its slice.
    let refused = unsafe {
        ccfb_decode_metrics(
            part.as_ptr(),
            part.len(),
            kinds.as_mut_ptr(),
            kinds.len(),
            marks.as_mut_ptr(),
            marks.len(),
            offsets.as_mut_ptr(),
            offsets.len(),
        )
    };
    answer(refused, ())
}

/// How many octets were written.
pub fn rewrite(packet: &[u8], out: &mut [u8]) -> Result<usize, Refusal> {
    let mut written = 0;
    // SAFETY: each pointer is passed with the length of its slice; the other is a reference.
    let refused = unsafe {
        ccfb_rewrite(packet.as_ptr(), packet.len(), out.as_mut_ptr(), out.len(), &mut written)
    };
    answer(refused, written)
}

/// How many CCFB packets a datagram holds.
pub fn feedback_count(datagram: &[u8]) -> Result<usize, Refusal> {
    let mut count = 0;
    // SAFETY: the pointer is passed with the length of its slice; the other is a reference.
    let refused = unsafe { ccfb_feedback_count(datagram.as_ptr(), datagram.len(), &mut count) };
    answer(refused, count)
}

/// The octets of CCFB packet k of a datagram.
pub fn feedback(datagram: &[u8], k: usize) -> Result<&[u8], Refusal> {
    let (octets, len) = (datagram.as_ptr(), datagram.len());
    let (mut packet_at, mut packet_length) = (0, 0);
    // SAFETY: the pointer is passed with the length of its slice; the others are references.
    let refused = unsafe { ccfb_feedback(octets, len, k, &mut packet_at, &mut packet_length) };
    answer(refused, ())?;
    part_of(datagram, packet_at, packet_length).ok_or(Refusal::BadDatagram)
}

/// The packet of any type at `at`, which moves past it.
pub fn next_packet<'a>(datagram: &'a [u8], at: &mut usize) -> Result<RtcpPacket<'a>, Refusal> {
    let (octets, len) = (datagram.as_ptr(), datagram.len());
    let (mut packet_type, mut format, mut packet_at, mut packet_length) = (0, 0, 0, 0);
    // SAFETY: the pointer is passed with the length of its slice; the others are references.
    let refused = unsafe {
        ccfb_next_packet(
            octets,
            len,
            at,
            &mut packet_type,
            &mut format,
            &mut packet_at,
            &mut packet_length,
        )
    };
    answer(refused, ())?;
    let octets = part_of(datagram, packet_at, packet_length).ok_or(Refusal::BadDatagram)?;
    Ok(RtcpPacket { packet_type, format, octets })
}

pub fn register(words: WordsMut<'_>, ssrc: u32, number: u16) -> Result<(), Refusal> {
    let WordsMut { places, cells } = words;
    let (cells, cells_len) = (cells.as_mut_ptr(), cells.len());
    // SAFETY: each pointer is passed with the length of its slice.
    let refused =
        unsafe { ccfb_register(places.as_mut_ptr(), places.len(), cells, cells_len, ssrc, number) };
    answer(refused, ())
}

pub fn take_in(words: WordsMut<'_>, packet: &[u8]) -> Result<(), Refusal> {
    let WordsMut { places, cells } = words;
    // SAFETY: each pointer is passed with the length of its slice.
    let refused = unsafe {
        ccfb_take_in(
            places.as_ptr(),
            places.len(),
            cells.as_mut_ptr(),
            cells.len(),
            packet.as_ptr(),
            packet.len(),
        )
    };
    answer(refused, ())
}

pub fn status(words: Words<'_>, ssrc: u32, number: u16) -> Result<Status, Refusal> {
    let Words { places, cells } = words;
    let (mut kind, mut mark, mut time) = (0, 0, 0);
    // SAFETY: each pointer is passed with the length of its slice; the others are references.
    let refused = unsafe {
        ccfb_status(
            places.as_ptr(),
            places.len(),
            cells.as_ptr(),
            cells.len(),
            ssrc,
            number,
            &mut kind,
            &mut mark,
            &mut time,
        )
    };
    answer(refused, status_of(kind, mark, time))
}

#[cfg(test)]
mod tests {
    use super::{answer, arrival_kind_of, metric_of, part_of, status_of, Arrival};

    /// The library gives none of these answers.
    #[test]
    fn no_answer_panics() {
        for (at, length) in [(0, 5), (4, 1), (5, 1), (usize::MAX, 1), (1, usize::MAX)] {
            assert_eq!(part_of(&[1, 2, 3, 4], at, length), None);
        }
        assert_eq!(part_of(&[1, 2, 3, 4], 1, 3), Some([2, 3, 4].as_slice()));
        for number in 0..=u8::MAX {
            assert_eq!(answer(number, ()).is_ok(), number == 0);
            metric_of(number, number, u16::MAX);
            status_of(number, number, u32::MAX);
            arrival_kind_of(Arrival { kind: number.into(), passed_over: u16::MAX });
        }
    }
}
