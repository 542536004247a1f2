//! Characters on the RKC line: control characters, line structures and the BCC.

pub const STX: u8 = 0x02;
pub const ETX: u8 = 0x03;
pub const EOT: u8 = 0x04;
pub const ENQ: u8 = 0x05;
pub const ACK: u8 = 0x06;
pub const NAK: u8 = 0x15;

/// What one byte of the line carries once its structure has been looked at.
#[derive(Clone, Copy, Debug, PartialEq, Eq)]
pub enum Received {
    /// A 7-bit character.
    Character(u8),
    /// A byte that breaks its structure, with its low seven bits. It is a line error and never a
    /// control character.
    LineError(u8),
}

/// The number of ones in a byte, counted bit by bit.
fn ones(byte: u8) -> u32 {
    let mut count = 0;
    for bit in 0..8 {
        if (byte >> bit) & 1 == 1 {
            count += 1;
        }
    }
    count
}

/// Whether a byte keeps its structure: in 0 the top bit must be 0, in 1 the number of ones is
/// even, in 2 odd.
fn keeps(structure: u8, byte: u8) -> bool {
    match structure {
        0 => byte < 0x80,
        1 => ones(byte) % 2 == 0,
        _ => ones(byte) % 2 == 1,
    }
}

/// Looks at one received byte.
pub fn received(structure: u8, byte: u8) -> Received {
    let low_seven = byte & 0x7F;
    if keeps(structure, byte) {
        Received::Character(low_seven)
    } else {
        Received::LineError(low_seven)
    }
}

/// A 7-bit character as it is sent: replies are sent in the same structure.
pub fn sent(structure: u8, character: u8) -> u8 {
    if keeps(structure, character) {
        character
    } else {
        character | 0x80
    }
}

/// The exclusive or of characters. A block's BCC is that of the characters after STX up to and
/// including ETX.
pub fn bcc(characters: &[u8]) -> u8 {
    let mut sum = 0;
    for character in characters {
        sum ^= character;
    }
    sum
}

/// Whether a character may stand in an identifier: 20H to 7EH.
pub fn printable(character: u8) -> bool {
    (0x20..=0x7E).contains(&character)
}

#[cfg(test)]
mod tests {
    use super::*;

    #[test]
    fn every_character_sent_is_received_again_and_its_other_form_is_a_line_error() {
        for structure in 0..=2 {
            for character in 0..=0x7F {
                let byte = sent(structure, character);
                assert_eq!(byte & 0x7F, character);
                assert_eq!(received(structure, byte), Received::Character(character));
                assert_eq!(
                    received(structure, byte ^ 0x80),
                    Received::LineError(character)
                );
            }
        }
    }

    #[test]
    fn control_characters_in_each_structure() {
        let control = [STX, ETX, EOT, ENQ, ACK, NAK];
        let even = [0x82, 0x03, 0x84, 0x05, 0x06, 0x95];
        let odd = [0x02, 0x83, 0x04, 0x85, 0x86, 0x15];
        for place in 0..6 {
            assert_eq!(sent(0, control[place]), control[place]);
            assert_eq!(sent(1, control[place]), even[place]);
            assert_eq!(sent(2, control[place]), odd[place]);
        }
    }

    #[test]
    fn the_edges_of_an_identifier_character() {
        assert!(!printable(0x1F));
        assert!(printable(0x20));
        assert!(printable(0x7E));
        assert!(!printable(0x7F));
    }
}
