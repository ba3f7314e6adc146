//! The mark that a number is reported with after a copy: the manual's table is what the library
//! does, entry by entry.

#![cfg(feature = "alloc")]

use ccfb::{Mark, Metric, Packet, Refusal, Report, Request, Store, Time};

const MANUAL: &str = include_str!("../../docs/MANUAL.md");

/// The marks as the manual writes them.
const NAMES: [(&str, Mark); 4] = [
    ("not-ECT", Mark::NotEct),
    ("ECT(1)", Mark::Ect1),
    ("ECT(0)", Mark::Ect0),
    ("ECN-CE", Mark::Ce),
];

fn mark_of(name: &str) -> Mark {
    let known = NAMES.iter().find(|(known, _)| *known == name);
    known.unwrap_or_else(|| panic!("{name} is no mark")).1
}

/// The entries of a row, without the bars.
fn entries(row: &str) -> Vec<&str> {
    row.trim_matches('|').split('|').map(str::trim).collect()
}

/// What is reported of a number that arrived with `held`, and again with `copy`.
fn reported(held: Mark, copy: Mark, time: Time) -> Result<Metric, Refusal> {
    let mut store = Store::<1>::new();
    store.arrive(7, 9, held, time)?;
    store.arrive(7, 9, copy, Time::At(2))?;
    let mut out = [0; 64];
    let request = Request { ssrc: 7, begin: 9, count: 1 };
    let mut packets = store.write(Report { own: 1, rts: 2, limit: 1_200 }, &[request], &mut out)?;
    let packet = Packet::read(packets.next().expect("a packet"))?;
    Ok(packet.metric(0, 0)?.1)
}

#[test]
fn as_the_manual_says() -> Result<(), Refusal> {
    let mut rows = MANUAL.lines().skip_while(|line| !line.starts_with("| held |"));
    let across = entries(rows.next().expect("the table of copies"));
    let rows: Vec<_> = rows.skip(1).take_while(|row| row.starts_with('|')).map(entries).collect();
    assert_eq!(across[1..], NAMES.map(|(name, _)| format!("copy {name}")));
    assert_eq!(rows.iter().map(|row| row[0]).collect::<Vec<_>>(), NAMES.map(|(name, _)| name));
    for row in rows {
        assert_eq!(row.len(), 1 + NAMES.len(), "{row:?}");
        for ((_, copy), after) in NAMES.into_iter().zip(&row[1..]) {
            let (held, mark) = (mark_of(row[0]), mark_of(after));
            let timed = Metric::Received { mark, offset: 0 };
            assert_eq!(reported(held, copy, Time::At(1))?, timed, "{held:?}, copy {copy:?}");
            let untimed = Metric::NoTime { mark };
            assert_eq!(reported(held, copy, Time::Unknown)?, untimed, "{held:?}, copy {copy:?}");
        }
    }
    Ok(())
}
