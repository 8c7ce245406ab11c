//! The DNP CRC: "x^16+x^13+x^12+x^11+x^10+x^8+x^6+x^5+x^2+1, low bit first, start 0, result
//! complemented".

/// The polynomial without x^16 is 3D65; its bits are turned round because the low bit goes first.
const POLYNOMIAL: u16 = 0xA6BC;

/// The check of some bytes, as a number.
pub fn crc(bytes: &[u8]) -> u16 {
    let mut rest: u16 = 0;
    for &byte in bytes {
        rest ^= u16::from(byte);
        for _ in 0..8 {
            let low = rest & 1;
            rest >>= 1;
            if low == 1 {
                rest ^= POLYNOMIAL;
            }
        }
    }
    !rest
}

/// The check as it stands on the line, low byte first.
pub fn check_bytes(bytes: &[u8]) -> [u8; 2] {
    crc(bytes).to_le_bytes()
}

#[cfg(test)]
mod tests {
    use super::*;

    #[test]
    fn published_check_value() {
        assert_eq!(crc(b"123456789"), 0xEA82);
        assert_eq!(check_bytes(b"123456789"), [0x82, 0xEA]);
    }

    #[test]
    fn well_known_header() {
        assert_eq!(check_bytes(&[0x05, 0x64, 0x05, 0xC0, 0x01, 0x00, 0x00, 0x04]), [0xE9, 0x21]);
    }

    #[test]
    fn nothing() {
        assert_eq!(crc(&[]), 0xFFFF);
    }
}
