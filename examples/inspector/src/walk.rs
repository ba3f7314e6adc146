//! Why octets are no datagram, in words. Whether they are one is for the library to say.

/// Octets of a packet's header, and of the words that its length field counts.
const HEADER: usize = 4;
const WORD: usize = 4;

const VERSION: u8 = 2;
/// The padding flag of a packet's first octet.
const PADDING: u8 = 0x20;

/// Where the first octets stand that are not a packet, counted from 0, and what is wrong with them.
pub fn fault(octets: &[u8]) -> Option<String> {
    let mut at = 0;
    while let Some(left) = octets.get(at..).filter(|left| !left.is_empty()) {
        match length(left) {
            Ok(length) => at += length,
            Err(wrong) => return Some(format!("at octet {at}: {wrong}")),
        }
    }
    None
}

/// The length of the packet that the octets start with. The error says why there is none.
fn length(octets: &[u8]) -> Result<usize, String> {
    let left = octets.len();
    let &[first, _, high, low, ..] = octets else {
        return Err(format!("a header has {HEADER} octets, {left} left"));
    };
    let length = WORD * (usize::from(u16::from_be_bytes([high, low])) + 1);
    let version = first >> 6; // its upper two bits
    if version != VERSION {
        return Err(format!("version {version}, not {VERSION}"));
    }
    if length > left {
        return Err(format!("the length field says {length} octets, {left} left"));
    }
    if length < left && first & PADDING != 0 {
        return Err(format!("the padding flag is set, and {} octets follow", left - length));
    }
    Ok(length)
}

#[cfg(test)]
mod tests {
    use super::*;
    use ccfb::Datagram;

    /// A BYE and a PLI.
    const DATAGRAM: [u8; 16] = *b"\x80\xcb\0\0\x81\xce\0\x02\0\0\0\xf1\0\0\0\x07";

    #[test]
    fn each_fault_has_its_place_and_its_words() {
        let with = |at: usize, octet| {
            let mut octets = DATAGRAM;
            octets[at] = octet;
            fault(&octets)
        };
        for (fault, words) in [
            (fault(&DATAGRAM[..2]), "at octet 0: a header has 4 octets, 2 left"),
            (fault(&DATAGRAM[..7]), "at octet 4: a header has 4 octets, 3 left"),
            (fault(&DATAGRAM[..15]), "at octet 4: the length field says 12 octets, 11 left"),
            (with(6, 0xff), "at octet 4: the length field says 261132 octets, 12 left"),
            (with(4, 0x41), "at octet 4: version 1, not 2"),
            (with(0, 0xa0), "at octet 0: the padding flag is set, and 12 octets follow"),
        ] {
            assert_eq!(fault.as_deref(), Some(words));
        }
        assert_eq!(with(4, 0xa1), None);
        assert_eq!(fault(&[]), None);
    }

    #[test]
    fn there_is_one_exactly_if_the_library_refuses_the_octets() {
        for (at, octet) in (0..DATAGRAM.len()).flat_map(|at| (0..=255).map(move |o| (at, o))) {
            let mut octets = DATAGRAM;
            octets[at] = octet;
            for octets in (0..=octets.len()).map(|end| &octets[..end]) {
                assert_eq!(fault(octets).is_some(), Datagram::read(octets).is_err());
            }
        }
    }
}
