//! The command line.

use std::ffi::OsString;
use std::path::PathBuf;

/// How to call the program, and what it does.
pub const HELP: &str = "\
usage: inspector [--svg FILE] <LINES

Reads lines of hex from standard input, an RTCP datagram each: one packet, or several back to back.
Shows each CCFB packet in readable form, or why it is refused, and other packets in a line each.
A line `gap N` or `refused N`, as ccfbline prints it, is put into words.

  --svg FILE  also draw the CCFB packets into FILE: the delay before RTS over the sequence number,
              with losses and CE marks, one panel for each stream
  --help      print this text

Exit status: 0; 1 if standard input, standard output or FILE fails; 2 if an argument is wrong.
";

/// What the program is asked to do.
#[derive(Debug, PartialEq, Eq)]
pub enum Asked {
    Help,
    /// Show the packets, and draw them into the file if one is named.
    Inspect {
        svg: Option<PathBuf>,
    },
}

/// Reads the arguments that follow the program's name. The error says in words what is wrong.
pub fn asked(arguments: impl IntoIterator<Item = OsString>) -> Result<Asked, String> {
    let mut arguments = arguments.into_iter();
    let mut svg = None;
    while let Some(argument) = arguments.next() {
        match argument.to_str() {
            Some("--help") => return Ok(Asked::Help),
            Some("--svg") if svg.is_some() => return Err("--svg is given twice".to_string()),
            Some("--svg") => {
                let file = arguments.next().ok_or("--svg needs a file")?;
                svg = Some(PathBuf::from(file));
            }
            _ => return Err(format!("unknown argument '{}'", argument.to_string_lossy())),
        }
    }
    Ok(Asked::Inspect { svg })
}

#[cfg(test)]
mod tests {
    use super::*;

    fn asked_by(arguments: &[&str]) -> Result<Asked, String> {
        asked(arguments.iter().map(OsString::from))
    }

    #[test]
    fn what_is_known() {
        assert_eq!(asked_by(&[]), Ok(Asked::Inspect { svg: None }));
        let svg = Some(PathBuf::from("a.svg"));
        assert_eq!(asked_by(&["--svg", "a.svg"]), Ok(Asked::Inspect { svg }));
        assert_eq!(asked_by(&["--help"]), Ok(Asked::Help));
    }

    #[test]
    fn what_is_wrong() {
        assert_eq!(asked_by(&["--svg"]), Err("--svg needs a file".to_string()));
        let twice = asked_by(&["--svg", "a.svg", "--svg", "b.svg"]);
        assert_eq!(twice, Err("--svg is given twice".to_string()));
        assert_eq!(asked_by(&["--png"]), Err("unknown argument '--png'".to_string()));
        assert_eq!(asked_by(&["a.hex"]), Err("unknown argument 'a.hex'".to_string()));
    }
}
