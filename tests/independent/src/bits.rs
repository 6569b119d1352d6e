//! Base64 (RFC 4648 section 4) as a string of bits, high bits first, which is cut by sixes or by eights.

const CHARACTER_BITS: u32 = 6;
const BYTE_BITS: u32 = 8;
const GROUP: usize = 4;
pub const PAD: u8 = b'=';

/// The value of a character of the alphabet.
pub fn value(character: u8) -> Option<u8> {
    match character {
        b'A'..=b'Z' => Some(character - b'A'),
        b'a'..=b'z' => Some(character - b'a' + 26),
        b'0'..=b'9' => Some(character - b'0' + 52),
        b'+' => Some(62),
        b'/' => Some(63),
        _ => None,
    }
}

/// The character that has this value.
pub fn character(value: u8) -> u8 {
    match value {
        0..=25 => b'A' + value,
        26..=51 => b'a' + (value - 26),
        52..=61 => b'0' + (value - 52),
        62 => b'+',
        63 => b'/',
        _ => unreachable!("a value of more than six bits"),
    }
}

fn bits_of(number: u8, width: u32) -> impl Iterator<Item = bool> {
    (0..width).rev().map(move |bit| number >> bit & 1 == 1)
}

fn number_of(bits: &[bool]) -> u8 {
    bits.iter().fold(0, |number, &bit| 2 * number + u8::from(bit))
}

/// The whole bytes, and the bits that are left over.
pub fn decode(characters: &[u8]) -> (Vec<u8>, Vec<bool>) {
    let values = characters.iter().filter_map(|&character| value(character));
    let bits: Vec<bool> = values.flat_map(|value| bits_of(value, CHARACTER_BITS)).collect();
    let bytes = bits.chunks_exact(BYTE_BITS as usize);
    let spare = bytes.remainder().to_vec();
    (bytes.map(number_of).collect(), spare)
}

/// The characters with their pads, in one line.
pub fn encode(data: &[u8]) -> Vec<u8> {
    let mut bits: Vec<bool> = data.iter().flat_map(|&byte| bits_of(byte, BYTE_BITS)).collect();
    bits.resize(bits.len().next_multiple_of(CHARACTER_BITS as usize), false);
    let sixes = bits.chunks_exact(CHARACTER_BITS as usize);
    let mut line: Vec<u8> = sixes.map(|six| character(number_of(six))).collect();
    line.resize(line.len().next_multiple_of(GROUP), PAD);
    line
}

#[cfg(test)]
mod tests {
    use super::*;

    /// The test vectors of RFC 4648 section 10.
    const VECTORS: [(&[u8], &[u8]); 7] = [
        (b"", b""),
        (b"f", b"Zg=="),
        (b"fo", b"Zm8="),
        (b"foo", b"Zm9v"),
        (b"foob", b"Zm9vYg=="),
        (b"fooba", b"Zm9vYmE="),
        (b"foobar", b"Zm9vYmFy"),
    ];

    #[test]
    fn vectors_of_rfc_4648() {
        for (data, text) in VECTORS {
            assert_eq!(encode(data), text);
            assert_eq!(decode(text).0, data);
        }
    }

    #[test]
    fn spare_bits() {
        assert_eq!(decode(b"Zh"), (b"f".to_vec(), vec![false, false, false, true]));
        assert_eq!(decode(b"Zm9"), (b"fo".to_vec(), vec![false, true]));
    }

    #[test]
    fn the_alphabet_in_its_order() {
        let all: Vec<u8> = (0..64).map(character).collect();
        assert!(all.iter().enumerate().all(|(at, &byte)| value(byte) == Some(at as u8)));
        assert_eq!((0..=u8::MAX).filter(|&byte| value(byte).is_some()).count(), 64);
        assert_eq!(all, b"ABCDEFGHIJKLMNOPQRSTUVWXYZabcdefghijklmnopqrstuvwxyz0123456789+/");
    }
}
