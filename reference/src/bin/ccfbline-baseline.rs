//! The baseline's `ccfbline`.

fn main() -> std::io::Result<()> {
    reference::baseline::ccfbline::run()
}
