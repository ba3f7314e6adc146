//! The C header has the refusals with their meanings, the version, the limits, the marks, the kinds
//! of metric and of arrival, and the type and FMT of a CCFB packet of this crate.

use ccfb::{kind, room, ArrivalKind, Datagram, Mark, Refusal};

const HEADER: &str = include_str!("../../include/ccfb.h");

/// The refusals of arrival files, which no call of the library gives.
const OF_THE_PROGRAM: std::ops::RangeInclusive<u8> = 11..=14;

/// What a macro stands for, without the comment behind it.
fn value_of(macro_name: &str) -> &'static str {
    let start = format!("#define {macro_name} ");
    let value = HEADER.lines().find_map(|line| line.strip_prefix(&start));
    let value = value.unwrap_or_else(|| panic!("no {macro_name} in the header"));
    value.split("/*").next().unwrap_or_default().trim_end()
}

/// `BadMark` as C names it: `CCFB_BAD_MARK`.
fn macro_name(refusal: Refusal) -> String {
    let mut name = String::from("CCFB");
    for letter in format!("{refusal:?}").chars() {
        if letter.is_uppercase() {
            name.push('_');
        }
        name.extend(letter.to_uppercase());
    }
    name
}

#[test]
fn refusals() {
    let of_calls =
        Refusal::ALL.iter().filter(|refusal| !OF_THE_PROGRAM.contains(&refusal.number()));
    let defined: Vec<String> = of_calls
        .map(|refusal| {
            let (name, number) = (macro_name(*refusal), refusal.number());
            format!("#define {name} {number} /* {} */", refusal.meaning())
        })
        .collect();
    let (_, refusals) = HEADER.split_once("/* Refusals. */\n").expect("the list of refusals");
    let (refusals, _) = refusals.split_once("\n\n").expect("its end");
    // The comments stand in a column.
    let words = |line: &str| line.split_whitespace().collect::<Vec<_>>().join(" ");
    assert_eq!(refusals.lines().map(words).collect::<Vec<_>>(), defined);
}

/// Each refusal has its text in `ccfb_refusal_text`.
#[test]
fn refusal_texts() {
    for refusal in Refusal::ALL {
        let (number, text) = (refusal.number(), refusal.meaning());
        let of_the_program = OF_THE_PROGRAM.contains(&number);
        let label = if of_the_program { number.to_string() } else { macro_name(*refusal) };
        let line = format!("case {label}: return {text:?};");
        assert!(HEADER.contains(&line), "no {line}");
    }
}

#[test]
fn version() {
    assert_eq!(value_of("CCFB_VERSION"), format!("{:?}", env!("CARGO_PKG_VERSION")));
    assert_eq!(value_of("CCFB_VERSION_MAJOR"), env!("CARGO_PKG_VERSION_MAJOR"));
    assert_eq!(value_of("CCFB_VERSION_MINOR"), env!("CARGO_PKG_VERSION_MINOR"));
    assert_eq!(value_of("CCFB_VERSION_PATCH"), env!("CARGO_PKG_VERSION_PATCH"));
}

#[test]
fn limits() {
    for (name, limit) in [
        ("CCFB_MOST_PLACES", ccfb::MOST_PLACES),
        ("CCFB_CELLS_OF_A_PLACE", ccfb::CELLS_OF_A_PLACE),
        ("CCFB_MOST_PASSED_OVER", ccfb::MOST_PASSED_OVER.into()),
        ("CCFB_LEAST_LIMIT", *ccfb::LIMITS.start()),
        ("CCFB_MOST_LIMIT", *ccfb::LIMITS.end()),
        ("CCFB_MOST_REQUESTS", ccfb::MOST_REQUESTS),
        ("CCFB_MOST_REPORTS", ccfb::MOST_REPORTS),
    ] {
        assert_eq!(value_of(name), limit.to_string(), "{name}");
    }
    let (of_a_number, of_a_request) = (room(1, 0), room(0, 1));
    assert_eq!(
        value_of("CCFB_ROOM(numbers, requests)"),
        format!("({of_a_number} * (numbers) + {of_a_request} * (requests))")
    );
}

#[test]
fn kinds() {
    for (name, kind) in [
        ("CCFB_NOT_RECEIVED", kind::NOT_RECEIVED),
        ("CCFB_RECEIVED", kind::RECEIVED),
        ("CCFB_OVER_RANGE", kind::OVER_RANGE),
        ("CCFB_NO_TIME", kind::NO_TIME),
        ("CCFB_NOT_REPORTED", kind::NOT_REPORTED),
    ] {
        assert_eq!(value_of(name), kind.to_string(), "{name}");
    }
}

#[test]
fn arrival_kinds() {
    for (name, kind) in [
        ("CCFB_FIRST", ArrivalKind::First),
        ("CCFB_AHEAD", ArrivalKind::Ahead { passed_over: 0 }),
        ("CCFB_LATE", ArrivalKind::Late),
        ("CCFB_COPY", ArrivalKind::Copy),
    ] {
        assert_eq!(value_of(name), kind.number().to_string(), "{name}");
    }
}

/// A header of this type and FMT is that of a CCFB packet, to the library and to this crate.
#[test]
fn type_and_format() {
    let number = |name| value_of(name).parse::<u8>().expect("a number");
    let octets = [0x80 | number("CCFB_FORMAT"), number("CCFB_PACKET_TYPE"), 0, 0];
    let datagram = Datagram::read(&octets).expect("a header is a packet");
    assert_eq!(datagram.feedback_count(), 1);
    assert!(datagram.packets().all(|packet| packet.is_ccfb()));
}

#[test]
fn marks() {
    for (name, mark) in [
        ("CCFB_NOT_ECT", Mark::NotEct),
        ("CCFB_ECT_1", Mark::Ect1),
        ("CCFB_ECT_0", Mark::Ect0),
        ("CCFB_CE", Mark::Ce),
    ] {
        assert_eq!(value_of(name), mark.number().to_string(), "{name}");
    }
}
