//! The reference's own `ccfbline`: an arrival file on standard input, its lines on standard output.

use std::io::{self, Read, Write};

fn main() -> io::Result<()> {
    let mut file = Vec::new();
    io::stdin().read_to_end(&mut file)?;
    io::stdout().write_all(reference::ccfbline::printed(&file).as_bytes())
}
