//! `bench`: a table of libccfb.a beside the plain Rust baseline, best of 30 runs.

fn main() {
    println!("{:<44} | {:>12} | {:>12} | {:>6}", "row", "ours ns", "baseline ns", "ratio");
    for row in reference::bench::rows() {
        let (ours, ratio) = match row.ours {
            None => ("-".to_string(), "-".to_string()),
            Some(ours) => (format!("{ours:.2}"), format!("{:.2}", ours / row.baseline)),
        };
        println!("{:<44} | {ours:>12} | {:>12.2} | {ratio:>6}", row.name, row.baseline);
    }
}
