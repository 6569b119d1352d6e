//! A table for each place in a group to decode with, a check without branches, and a table of pairs to write with: of
//! the ways that were tried in safe Rust, the fastest.

use super::{Codec, ALPHABET, GROUP, GROUP_DATA, LINE, LINE_DATA};

pub struct Tuned;

/// For each place in a group the bits of a character there, as the group's bytes have them in little-endian order.
static PLACED: [[u32; 256]; GROUP] = [placed(18), placed(12), placed(6), placed(0)];

/// What a byte outside the alphabet has. No group has this bit, so an OR of many groups shows it.
const BAD: u32 = 1 << 31;

const fn placed(shift: u32) -> [u32; 256] {
    let mut table = [BAD; 256];
    let mut value = 0;
    while value < ALPHABET.len() {
        let [_, a, b, c] = ((value as u32) << shift).to_be_bytes();
        table[ALPHABET[value] as usize] = u32::from_le_bytes([a, b, c, 0]);
        value += 1;
    }
    table
}

/// The two characters of twelve bits.
static PAIRS: [[u8; 2]; 1 << 12] = pairs();

const fn pairs() -> [[u8; 2]; 1 << 12] {
    let mut table = [[0; 2]; 1 << 12];
    let mut bits = 0;
    while bits < table.len() {
        table[bits] = [ALPHABET[bits >> 6], ALPHABET[bits & 63]];
        bits += 1;
    }
    table
}

impl Codec for Tuned {
    #[inline]
    fn decode_line(line: &[u8; LINE], out: &mut [u8; LINE_DATA]) -> bool {
        let groups = line.as_chunks::<GROUP>().0;
        let mut seen = 0;
        // Two groups go through one register.
        for ([first, second], six) in groups.as_chunks().0.iter().zip(out.as_chunks_mut().0) {
            let (first, second) = (join(first), join(second));
            let [bytes @ .., _, _] = (u64::from(first) | u64::from(second) << 24).to_le_bytes();
            *six = bytes;
            seen |= first | second;
        }
        seen & BAD == 0
    }

    #[inline]
    fn decode(group: &[u8; GROUP]) -> Option<[u8; GROUP_DATA]> {
        let bits = join(group);
        let [bytes @ .., _] = bits.to_le_bytes();
        (bits & BAD == 0).then_some(bytes)
    }

    /// Without branches, the compiler takes many bytes at once.
    #[inline]
    fn is_clean(line: &[u8; LINE]) -> bool {
        // The slash stands right before the digits.
        let is_character = |byte: u8| (byte | 0x20).is_ascii_lowercase() | matches!(byte, b'/'..=b'9' | b'+');
        line.iter().fold(true, |clean, &byte| clean & is_character(byte))
    }

    #[inline]
    fn encode_line(line: &[u8; LINE_DATA], out: &mut [u8; LINE]) {
        for (bytes, group) in line.as_chunks().0.iter().zip(out.as_chunks_mut().0) {
            Self::encode(bytes, group);
        }
    }

    #[inline]
    fn encode(bytes: &[u8; GROUP_DATA], group: &mut [u8; GROUP]) {
        let &[a, b, c] = bytes;
        let bits = u32::from_be_bytes([0, a, b, c]) as usize;
        let [[a, b], [c, d]] = [PAIRS[bits >> 12], PAIRS[bits & 0xFFF]];
        *group = [a, b, c, d];
    }
}

/// The three bytes of four characters in little-endian order, and [`BAD`] where one of them is not in the alphabet.
fn join(group: &[u8; GROUP]) -> u32 {
    let placed = |at: usize| PLACED[at][usize::from(group[at])];
    placed(0) | placed(1) | placed(2) | placed(3)
}
