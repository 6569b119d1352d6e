//! One table of 256 values to decode and to check with, and a character at a time to write.

use super::{Codec, ALPHABET, GROUP, GROUP_DATA, LINE, LINE_DATA};

pub struct Ordinary;

/// The value of a byte outside the alphabet. No value of the alphabet has its high bit, so an OR of many shows it.
const BAD: u8 = 0x80;

static VALUES: [u8; 256] = values();

const fn values() -> [u8; 256] {
    let mut table = [BAD; 256];
    let mut value = 0;
    while value < ALPHABET.len() {
        table[ALPHABET[value] as usize] = value as u8;
        value += 1;
    }
    table
}

impl Codec for Ordinary {
    #[inline]
    fn decode_line(line: &[u8; LINE], out: &mut [u8; LINE_DATA]) -> bool {
        let mut seen = 0;
        for (characters, six) in line.as_chunks::<8>().0.iter().zip(out.as_chunks_mut().0) {
            let (bits, values) = join(characters);
            let [_, _, bytes @ ..] = bits.to_be_bytes();
            *six = bytes;
            seen |= values;
        }
        seen & BAD == 0
    }

    #[inline]
    fn decode(group: &[u8; GROUP]) -> Option<[u8; GROUP_DATA]> {
        let (bits, seen) = join(group);
        let [.., a, b, c] = bits.to_be_bytes();
        (seen & BAD == 0).then_some([a, b, c])
    }

    #[inline]
    fn is_clean(line: &[u8; LINE]) -> bool {
        let seen = line.iter().fold(0, |seen, &byte| seen | VALUES[usize::from(byte)]);
        seen & BAD == 0
    }

    #[inline]
    fn encode_line(line: &[u8; LINE_DATA], out: &mut [u8; LINE]) {
        for (six, characters) in line.as_chunks::<6>().0.iter().zip(out.as_chunks_mut::<8>().0) {
            split(six, characters);
        }
    }

    #[inline]
    fn encode(bytes: &[u8; GROUP_DATA], group: &mut [u8; GROUP]) {
        split(bytes, group);
    }
}

/// The values of at most eight characters, joined in one number, and the OR of them.
#[inline]
fn join(characters: &[u8]) -> (u64, u8) {
    characters.iter().fold((0, 0), |(bits, seen), &character| {
        let value = VALUES[usize::from(character)];
        (bits << 6 | u64::from(value), seen | value)
    })
}

/// Puts the four characters of three bytes, or the eight of six, which go through one register.
#[inline]
fn split(bytes: &[u8], characters: &mut [u8]) {
    let mut bits = bytes.iter().fold(0, |bits, &byte| bits << 8 | u64::from(byte));
    for character in characters.iter_mut().rev() {
        *character = ALPHABET[(bits & 63) as usize];
        bits >>= 6;
    }
}
