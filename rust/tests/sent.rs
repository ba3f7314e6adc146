//! What a sender knows of its sent packets, in borrowed memory and in its own.

use ccfb::{Mark, Refusal, SentPacketsIn, Status, CELLS_OF_A_PLACE, MOST_PLACES};

/// Metrics: received 1/1024 s before RTS, received without an offset, and missing.
const ECT_1: u16 = 0xa001;
const CE: u16 = 0xe001;
const OVER_RANGE: u16 = 0xfffe;
const NO_TIME: u16 = 0xbfff;
const MISSING: u16 = 0x0000;

/// What the first of them says in a packet whose RTS is so many times 1/1024 s.
fn ect_1(units: u32) -> Status {
    Status::Received { mark: Mark::Ect1, time: 64 * (units - 1) }
}

/// A block: a stream, its first number, and the metrics.
type Block<'a> = (u32, u16, &'a [u16]);

fn packet(rts: u32, blocks: &[Block]) -> Vec<u8> {
    let mut octets = vec![0x8b, 205, 0, 0, 0, 0, 0, 0xf1];
    for (ssrc, begin, metrics) in blocks {
        octets.extend(ssrc.to_be_bytes());
        octets.extend(begin.to_be_bytes());
        octets.extend((metrics.len() as u16).to_be_bytes());
        octets.extend(metrics.iter().flat_map(|metric| metric.to_be_bytes()));
        octets.resize(octets.len().next_multiple_of(4), 0);
    }
    octets.extend(rts.to_be_bytes());
    octets[3] = (octets.len() / 4 - 1) as u8;
    octets
}

/// Memory for two streams.
struct Memory {
    places: [u64; 2],
    cells: [u64; 2 * CELLS_OF_A_PLACE],
}

impl Memory {
    fn zeroed() -> Memory {
        Memory { places: [0; 2], cells: [0; 2 * CELLS_OF_A_PLACE] }
    }

    fn sent(&mut self) -> SentPacketsIn<'_> {
        SentPacketsIn::new(&mut self.places, &mut self.cells).expect("memory for two")
    }

    /// With these numbers of stream 7 registered.
    fn with(numbers: &[u16]) -> Memory {
        let mut memory = Memory::zeroed();
        for number in numbers {
            memory.sent().register(7, *number).expect("in or ahead of the window");
        }
        memory
    }
}

#[test]
fn each_metric_has_its_status() -> Result<(), Refusal> {
    let mut memory = Memory::with(&[65_534, 65_535, 0, 1, 2, 3]);
    let mut sent = memory.sent();
    let metrics = [ECT_1, CE, OVER_RANGE, NO_TIME, MISSING];
    sent.take_in(&packet(0, &[(7, 65_534, &metrics)]))?;
    let known = [65_534, 65_535, 0, 1, 2, 3].map(|number| sent.status(7, number));
    let time = 0_u32.wrapping_sub(64);
    assert_eq!(
        known.map(|status| status.expect("registered")),
        [
            Status::Received { mark: Mark::Ect1, time },
            Status::Received { mark: Mark::Ce, time },
            Status::OverRange { mark: Mark::Ce },
            Status::NoTime { mark: Mark::Ect1 },
            Status::Missing,
            Status::NotReported,
        ]
    );
    Ok(())
}

#[test]
fn missing_never_replaces_received_and_another_received_does() -> Result<(), Refusal> {
    let mut memory = Memory::with(&[100]);
    let mut sent = memory.sent();
    let mut after = |units: u32, metric| {
        sent.take_in(&packet(64 * units, &[(7, 100, &[metric])]))?;
        sent.status(7, 100)
    };
    assert_eq!(after(1, MISSING)?, Status::Missing);
    assert_eq!(after(2, ECT_1)?, ect_1(2));
    assert_eq!(after(3, MISSING)?, ect_1(2));
    assert_eq!(after(4, NO_TIME)?, Status::NoTime { mark: Mark::Ect1 });
    assert_eq!(after(5, MISSING)?, Status::NoTime { mark: Mark::Ect1 });
    assert_eq!(after(4, OVER_RANGE)?, Status::OverRange { mark: Mark::Ce });
    assert_eq!(after(3, ECT_1)?, ect_1(3));
    Ok(())
}

#[test]
fn of_two_blocks_the_last_received_counts() -> Result<(), Refusal> {
    let mut memory = Memory::with(&[100, 101]);
    let mut sent = memory.sent();
    let blocks: [Block; 3] = [(7, 100, &[CE, CE]), (9, 100, &[CE]), (7, 100, &[ECT_1, MISSING])];
    sent.take_in(&packet(64, &blocks))?;
    assert_eq!(sent.status(7, 100), Ok(ect_1(1)));
    assert_eq!(sent.status(7, 101), Ok(Status::Received { mark: Mark::Ce, time: 0 }));
    assert_eq!(sent.status(9, 100), Err(Refusal::NotHeld));
    Ok(())
}

/// A number shares its cell with the one 2,048 before it, and with the one after.
#[test]
fn what_is_not_registered_in_the_window_is_ignored() -> Result<(), Refusal> {
    let mut memory = Memory::with(&[5_000, 5_002]);
    let before = memory.cells;
    for number in [2_952, 2_954, 4_999, 5_001, 5_003, 7_048, 7_050, 37_770] {
        memory.sent().take_in(&packet(64, &[(7, number, &[ECT_1]), (9, 5_000, &[ECT_1])]))?;
    }
    assert_eq!(memory.cells, before);
    let mut sent = memory.sent();
    sent.register(7, 5_003)?;
    sent.register(7, 5_001)?;
    for number in 5_000..=5_003 {
        assert_eq!(sent.status(7, number), Ok(Status::NotReported));
    }
    Ok(())
}

#[test]
fn registering_again_and_refused_calls_change_nothing() -> Result<(), Refusal> {
    let mut memory = Memory::with(&[100, 101, 102]);
    memory.sent().take_in(&packet(64, &[(7, 100, &[ECT_1, MISSING])]))?;
    memory.sent().register(9, 5)?;
    let (places, cells) = (memory.places, memory.cells);
    let mut sent = memory.sent();
    for number in [100, 102, 101] {
        sent.register(7, number)?;
    }
    assert_eq!(sent.register(7, 40_000), Err(Refusal::TooOld));
    assert_eq!(sent.register(8, 100), Err(Refusal::NoFreePlace));
    // The last block is damaged, and the first is not entered.
    let mut damaged = packet(64, &[(7, 100, &[CE, CE]), (9, 5, &[CE])]);
    damaged[30] = 1;
    assert_eq!(sent.take_in(&damaged), Err(Refusal::FillerNotZero));
    assert_eq!((memory.places, memory.cells), (places, cells));
    Ok(())
}

/// Every fifth number is not sent: its cell had another number's word, and has none now.
#[test]
fn the_window_moves_on_past_65535() -> Result<(), Refusal> {
    const LAST: u16 = 3_998;
    let number_of = |i: u16| 63_000_u16.wrapping_add(i);
    let is_sent = |i: &u16| i % 5 != 4;
    let mut memory = Memory::zeroed();
    let mut sent = memory.sent();
    for number in (0..=LAST).filter(is_sent).map(number_of) {
        sent.register(7, number)?;
        assert_eq!(sent.status(7, number), Ok(Status::NotReported));
        sent.take_in(&packet(64, &[(7, number, &[ECT_1])]))?;
    }
    for i in 0..=LAST {
        let known = LAST - i < 2_048 && is_sent(&i);
        let status = if known { Ok(ect_1(1)) } else { Err(Refusal::NotRegistered) };
        assert_eq!(sent.status(7, number_of(i)), status, "{i}");
    }
    Ok(())
}

#[test]
fn only_memory_of_the_right_shape() {
    let mut places = [0; MOST_PLACES + 1];
    let mut cells = vec![0; (MOST_PLACES + 1) * CELLS_OF_A_PLACE];
    for count in 0..=MOST_PLACES + 1 {
        let right = count * CELLS_OF_A_PLACE;
        for length in [right.saturating_sub(1), right, right + 1] {
            let Some(cells) = cells.get_mut(..length) else { continue };
            let accepted = length == right && (1..=MOST_PLACES).contains(&count);
            let sent = SentPacketsIn::new(&mut places[..count], cells);
            assert_eq!(sent.err().is_none(), accepted);
        }
    }
}

#[test]
fn any_words_are_sent_packets() -> Result<(), Refusal> {
    for word in [u64::MAX, 0x0001_0000_0007_0064, 0x0001_0000_0007_ffff] {
        let mut memory = Memory { places: [word; 2], cells: [word; 2 * CELLS_OF_A_PLACE] };
        let mut sent = memory.sent();
        sent.register(7, 100)?;
        sent.take_in(&packet(64, &[(7, 100, &[ECT_1])]))?;
        assert_eq!(sent.status(7, 100), Ok(ect_1(1)));
    }
    Ok(())
}

#[cfg(feature = "alloc")]
#[test]
fn owned_memory_answers_as_borrowed() -> Result<(), Refusal> {
    let mut owned = ccfb::SentPackets::<2>::default();
    let mut memory = Memory::zeroed();
    let mut borrowed = memory.sent();
    for (ssrc, number) in [(7, 100), (8, 5), (9, 1), (7, 104), (7, 60_000), (8, 5)] {
        assert_eq!(borrowed.register(ssrc, number), owned.register(ssrc, number));
    }
    let feedback = packet(64, &[(7, 99, &[ECT_1; 6]), (8, 5, &[MISSING])]);
    for octets in [&feedback[..], &feedback[4..]] {
        assert_eq!(borrowed.take_in(octets), owned.take_in(octets));
    }
    for (ssrc, number) in [7, 8, 9].into_iter().flat_map(|ssrc| (0..110).map(move |n| (ssrc, n))) {
        assert_eq!(borrowed.status(ssrc, number), owned.status(ssrc, number));
        assert_eq!(owned.clone().status(ssrc, number), owned.status(ssrc, number));
    }
    assert_eq!(format!("{borrowed:?}"), "SentPackets { places: 2, .. }");
    assert_eq!(format!("{owned:?}"), format!("{borrowed:?}"));
    Ok(())
}
