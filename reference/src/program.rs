//! The `ccfbline` programs, the product's and the baseline's, run with a given input.

use std::env;
use std::io::{self, Write};
use std::path::{Path, PathBuf};
use std::process::{Command, Output, Stdio};

/// The product's program, which the environment variable CCFBLINE names. A path of no program fails
/// when it is run.
pub fn product() -> PathBuf {
    env::var_os("CCFBLINE").unwrap_or_default().into()
}

/// The baseline's program, in the folder of the running one.
pub fn baseline() -> PathBuf {
    let running = env::current_exe().expect("the path of this program");
    running.with_file_name("ccfbline-baseline")
}

/// What the program prints, or how it failed.
pub fn printed(program: &Path, input: &[u8]) -> Result<String, String> {
    let mut child = Command::new(program)
        .stdin(Stdio::piped())
        .stdout(Stdio::piped())
        .stderr(Stdio::piped())
        .spawn()
        .map_err(|error| format!("CCFBLINE={}: {error}", program.display()))?;
    let mut stdin = child.stdin.take().expect("piped");
    // A program that has found a fault may stop reading.
    match stdin.write_all(input) {
        Err(error) if error.kind() != io::ErrorKind::BrokenPipe => return Err(error.to_string()),
        _ => drop(stdin),
    }
    let Output { status, stdout, stderr } =
        child.wait_with_output().map_err(|error| error.to_string())?;
    if status.code().is_none() || !stderr.is_empty() {
        return Err(format!("{status}: {}", String::from_utf8_lossy(&stderr)));
    }
    Ok(String::from_utf8_lossy(&stdout).into_owned())
}
