//! `compare [--baseline] [SUBJECT...]`: compares the reference with libccfb.a (or the baseline) on
//! the subjects named, or on all that this build has.

use reference::compare::{run, With, SUBJECTS};
use std::process::exit;
use std::thread;

fn main() {
    let mut arguments: Vec<String> = std::env::args().skip(1).collect();
    let with = match arguments.first().map(String::as_str) {
        Some("--baseline") => With::Baseline,
        _ => With::Product,
    };
    if with == With::Baseline {
        arguments.remove(0);
    }
    let named = !arguments.is_empty();
    let all = SUBJECTS.map(String::from).to_vec();
    // The subjects share nothing: each has its thread, and their lines come in order.
    let subjects = (if named { arguments } else { all }).into_iter();
    let started: Vec<_> =
        subjects.map(|name| (name.clone(), thread::spawn(move || run(&name, with)))).collect();
    let mut ran = 0;
    for (name, subject) in started {
        match subject.join().expect("a comparison does not panic") {
            None if named => fail(2, &format!("compare: {name} is not in this build")),
            None => {}
            Some(Err(mismatch)) => fail(1, &mismatch),
            Some(Ok(line)) => {
                println!("{line}");
                ran += 1;
            }
        }
    }
    if ran == 0 {
        fail(2, "compare: built without CCFB_LIB_DIR, there is nothing to compare with");
    }
}

fn fail(code: i32, line: &str) {
    println!("{line}");
    exit(code);
}
