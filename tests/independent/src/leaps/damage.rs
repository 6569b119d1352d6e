//! Damage at the places of a line where what may be taken at once begins or ends.

use crate::random::Random;
use std::collections::BTreeSet;

/// Places from a line's start: the ends of groups and of blocks of 16, 32, 48 and 64 characters, and those beside them.
const PLACES: [usize; 18] = [0, 1, 14, 15, 16, 17, 30, 31, 32, 33, 47, 48, 49, 62, 63, 64, 65, 66];
/// Bytes that mean something somewhere, or stand just beside one that does.
pub const TELLING: [u8; 31] = *b"\x00\t\n\x0b\x0c\r !*+,-./09:=@AZ[`az{~\x7f\x80\xab\xff";
/// What is put in besides: marks of more than one byte.
const PIECES: [&[u8]; 6] = [b"\r\n", b"\n\r", b"  ", b"==", b"--", b"-----"];

/// The places of all lines that a text of this length has.
pub fn places(starts: &[usize], length: usize) -> BTreeSet<usize> {
    let places = starts.iter().flat_map(|start| PLACES.map(|place| start + place));
    places.filter(|&place| place <= length).collect()
}

/// Hands over the text with each single edit at a place: telling bytes instead of its byte and before it, pieces before it,
/// without its byte, and cut off there.
pub fn each(text: &[u8], place: usize, mut hand_over: impl FnMut(&[u8])) {
    let (before, after) = text.split_at(place);
    let rest = after.get(1..).unwrap_or_default();
    for byte in TELLING {
        hand_over(&[before, &[byte], rest].concat());
        hand_over(&[before, &[byte], after].concat());
    }
    for piece in PIECES {
        hand_over(&[before, piece, after].concat());
    }
    hand_over(&[before, rest].concat());
    // What was cut off is still there, behind the end of what is handed over: nothing may be taken from it.
    hand_over(before);
}

/// The text after one random edit at one of the places, which may be behind its end.
pub fn one(text: &[u8], places: &[usize], random: &mut Random) -> Vec<u8> {
    let place = random.pick(places).min(text.len());
    let (before, after) = text.split_at(place);
    let rest = after.get(1..).unwrap_or_default();
    let byte = [random.pick(&TELLING)];
    match random.below(8) {
        0..=2 => [before, &byte, rest].concat(),
        3 | 4 => [before, &byte, after].concat(),
        5 => [before, random.pick(&PIECES), after].concat(),
        6 => [before, rest].concat(),
        _ => before.to_vec(),
    }
}

#[cfg(test)]
mod tests {
    use super::*;

    #[test]
    fn places_within_the_text() {
        let places = places(&[0, 65], 80);
        assert!(places.contains(&64) && places.contains(&65) && places.contains(&80) && !places.contains(&81));
        assert_eq!(places.len(), PLACES.len() + 2);
    }

    #[test]
    fn each_edit_at_a_place() {
        let mut edited = Vec::new();
        each(b"Zg==", 2, |text| edited.push(text.to_vec()));
        assert_eq!(edited.len(), 2 * TELLING.len() + PIECES.len() + 2);
        for text in [b"Zg-=".as_slice(), b"Zg-==", b"Zg\r\n==", b"Zg=", b"Zg"] {
            assert!(edited.iter().any(|edited| edited == text));
        }
    }
}
