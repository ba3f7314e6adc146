//! Lines of hex.

use std::fmt;

/// Why a line is not hex.
#[derive(Debug, PartialEq, Eq)]
pub enum Fault {
    /// That column, counted from 1, has no hex digit.
    NoDigit { octet: u8, column: usize },
    /// An odd number of digits, this many.
    OddDigits(usize),
}

impl fmt::Display for Fault {
    fn fmt(&self, f: &mut fmt::Formatter<'_>) -> fmt::Result {
        match self {
            Fault::NoDigit { octet, column } => {
                write!(f, "'{}' in column {column}", octet.escape_ascii())
            }
            Fault::OddDigits(digits) => write!(f, "{digits} digits are an odd number"),
        }
    }
}

/// The octets of a line in lower or upper case. Spaces and colons are ignored.
pub fn octets(line: &[u8]) -> Result<Vec<u8>, Fault> {
    let mut digits = Vec::with_capacity(line.len());
    for (&octet, column) in line.iter().zip(1..) {
        match char::from(octet).to_digit(16) {
            Some(digit) => digits.push(digit as u8),
            None if octet.is_ascii_whitespace() || octet == b':' => {}
            None => return Err(Fault::NoDigit { octet, column }),
        }
    }
    if digits.len() % 2 == 1 {
        return Err(Fault::OddDigits(digits.len()));
    }
    Ok(digits.chunks_exact(2).map(|pair| 16 * pair[0] + pair[1]).collect())
}

#[cfg(test)]
mod tests {
    use super::*;

    #[test]
    fn either_case_spaces_and_colons() {
        assert_eq!(octets(b"8b CD\t0a"), Ok(vec![0x8b, 0xcd, 0x0a]));
        assert_eq!(octets(b"8b:cd:0a"), Ok(vec![0x8b, 0xcd, 0x0a]));
        assert_eq!(octets(b""), Ok(vec![]));
    }

    #[test]
    fn faults() {
        assert_eq!(octets(b"8bc"), Err(Fault::OddDigits(3)));
        assert_eq!(octets(b"8g"), Err(Fault::NoDigit { octet: b'g', column: 2 }));
        assert_eq!(octets(b"8b\xff"), Err(Fault::NoDigit { octet: 0xff, column: 3 }));
    }
}
