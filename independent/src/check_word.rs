//! The check word at the end of a group: polynomial x^16 + x^12 + x^5 + 1, register started from
//! all ones, result complemented. One bit at a time, as the shift register of EN 300 401 annex E
//! is drawn, so that nothing here can share a mistake with a table.

/// x^12 + x^5 + 1; the sixteenth power is the bit that is shifted out.
const POLYNOMIAL: u16 = 0x1021;

/// The check word of these bytes, most significant bit first.
pub fn of(bytes: &[u8]) -> u16 {
    let mut register = 0xFFFF_u16;
    for &byte in bytes {
        for place in (0..8).rev() {
            let coming_in = u16::from(byte >> place) & 1;
            let going_out = register >> 15;
            register <<= 1;
            if coming_in != going_out {
                register ^= POLYNOMIAL;
            }
        }
    }
    !register
}

#[cfg(test)]
mod tests {
    use super::of;

    #[test]
    fn values_of_document_01() {
        assert_eq!(of(&[]), 0x0000);
        assert_eq!(of(&[0xFF]), 0x00FF);
        assert_eq!(of(&[0x00]), 0x1E0F);
    }

    /// The catalogue of parametrised CRC algorithms (reveng) lists this check word as
    /// CRC-16/GENIBUS, also named CRC-16/DARC, CRC-16/EPC and CRC-16/I-CODE, with this check value.
    #[test]
    fn check_value_of_the_catalogue() {
        assert_eq!(of(b"123456789"), 0xD64E);
    }

    /// The same catalogue gives the register after a message and its own check word as 0x1D0F.
    #[test]
    fn residue_of_the_catalogue() {
        for message in [&b""[..], b"1", b"123456789", &[0xFF; 40]] {
            let mut whole = message.to_vec();
            whole.extend(of(message).to_be_bytes());
            assert_eq!(!of(&whole), 0x1D0F);
        }
    }

    /// The catalogue's CRC-16/IBM-3740 is this one without the complement; its check value is
    /// 0x29B1. Values for "A" and for 256 of them stand in the SRecord notes on CRC-16/CCITT.
    #[test]
    fn values_published_without_the_complement() {
        assert_eq!(!of(b"123456789"), 0x29B1);
        assert_eq!(!of(b"A"), 0xB915);
        assert_eq!(!of(&[b'A'; 256]), 0xEA0B);
    }

    /// EPCglobal Class-1 Generation-2, the annex with the example of a tag's memory: the stored
    /// CRC-16 of a protocol-control word followed by none to six words of a code.
    #[test]
    fn stored_words_of_the_example_tag() {
        let published = [
            (0x0000, 0xE2F0),
            (0x0800, 0xCCAE),
            (0x1000, 0x968F),
            (0x1800, 0x78F6),
            (0x2000, 0xC241),
            (0x2800, 0x2A91),
            (0x3000, 0x1835),
        ];
        let code = [0x1111_u16, 0x2222, 0x3333, 0x4444, 0x5555, 0x6666];
        for (words, (control, stored)) in published.into_iter().enumerate() {
            let mut memory = u16::to_be_bytes(control).to_vec();
            for word in &code[..words] {
                memory.extend(word.to_be_bytes());
            }
            assert_eq!(of(&memory), stored);
        }
    }
}
